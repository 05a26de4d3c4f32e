# 3,355,444 different keys: five columns for each in the projection are 16,777,220 cells
print("\n".join(map(str, range(3_355_444))))
