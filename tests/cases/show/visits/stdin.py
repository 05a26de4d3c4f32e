# 100,000 visits of January 2024: 1,000 users, 50 pages, 60 durations, and a tag for every second one
for i in range(100_000):
    print(f"2024-01-{i % 31 + 1:02}", i % 1000, f"/p{i % 50}", i % 60, "\\N" if i % 2 == 0 else "x", sep="\t")
