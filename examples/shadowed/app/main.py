import report

print(report.send("hello"))
