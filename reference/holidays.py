# What the program must write for the lines on standard input: the dates by datetime and dateutil, and nothing of the program.
import sys
from datetime import date, timedelta
from dateutil.easter import easter

NAMES = ["New Year's Day", "Good Friday", "Easter Monday", "May Day", "Spring Bank Holiday", "Late Summer Bank Holiday", "Christmas Day", "Boxing Day"]

def monday(year, month, last):
    days = [date(year, month, 1) + timedelta(n) for n in range(31)]
    mondays = [d for d in days if d.month == month and d.weekday() == 0]
    return mondays[-1] if last else mondays[0]

def days(year):
    e = easter(year)
    return [date(year, 1, 1), e - timedelta(2), e + timedelta(1), monday(year, 5, False), monday(year, 5, True), monday(year, 8, True), date(year, 12, 25), date(year, 12, 26)]

for line in sys.stdin.buffer.read().split(b"\n")[:-1][:64]:
    if len(line) == 4 and all(48 <= b <= 57 for b in line) and 2000 <= int(line) <= 2199:
        for d, k in sorted((d, k) for k, d in enumerate(days(int(line)), 1)):
            print(d.isoformat(), d.strftime("%A"), (d - date(2000, 1, 1)).days, k, NAMES[k - 1])
    else:
        print("refused 40")
