# Dates and windows of the week, in which no practice run starts.
# A date is the whole of its day, and a window begins with its first minute and ends before its second.

== the first date
call 0 0 0 RegisterManagedResource {"name":"r","availabilityZones":["z"]}
call 0 0 0 CreatePracticeRunConfiguration {"resourceIdentifier":"arn:arc:resource/0000000000000001","blockedDates":["1970-01-01"],"outcomeAlarms":[{"alarmIdentifier":"o"}]}
call 0 0 0 StartPracticeRun {"resourceIdentifier":"arn:arc:resource/0000000000000001","awayFrom":"z","comment":""}
call 0 86399999 0 StartPracticeRun {"resourceIdentifier":"arn:arc:resource/0000000000000001","awayFrom":"z","comment":""}
call 0 86400000 0 StartPracticeRun {"resourceIdentifier":"arn:arc:resource/0000000000000001","awayFrom":"z","comment":""}
----
slot 0 token 1 200 {"resourceIdentifier":"arn:arc:resource/0000000000000001"}
slot 1 token 2 200 {}
slot 2 token 3 409 {"Cause":"BlockedDate","Reason":"Blocked","__type":"ConflictException"}
slot 3 token 4 409 {"Cause":"BlockedDate","Reason":"Blocked","__type":"ConflictException"}
slot 4 token 5 200 {"awayFrom":"z","comment":"","expiryTime":88200000,"practiceRunOutcome":"PENDING","resourceIdentifier":"arn:arc:resource/0000000000000001","startTime":86400000,"status":"ACTIVE","zonalShiftId":"00000000-0000-0000-0000-000000000001"}

== a date is the whole of its day
call 0 0 0 RegisterManagedResource {"name":"r","availabilityZones":["z"]}
call 0 0 0 CreatePracticeRunConfiguration {"resourceIdentifier":"arn:arc:resource/0000000000000001","blockedDates":["2026-12-01"],"outcomeAlarms":[{"alarmIdentifier":"o"}]}
call 0 1796083200000 0 StartPracticeRun {"resourceIdentifier":"arn:arc:resource/0000000000000001","awayFrom":"z","comment":""}
call 0 1796169599999 0 StartPracticeRun {"resourceIdentifier":"arn:arc:resource/0000000000000001","awayFrom":"z","comment":""}
call 0 1796169600000 0 StartPracticeRun {"resourceIdentifier":"arn:arc:resource/0000000000000001","awayFrom":"z","comment":""}
----
slot 0 token 1 200 {"resourceIdentifier":"arn:arc:resource/0000000000000001"}
slot 1 token 2 200 {}
slot 2 token 3 409 {"Cause":"BlockedDate","Reason":"Blocked","__type":"ConflictException"}
slot 3 token 4 409 {"Cause":"BlockedDate","Reason":"Blocked","__type":"ConflictException"}
slot 4 token 5 200 {"awayFrom":"z","comment":"","expiryTime":1796171400000,"practiceRunOutcome":"PENDING","resourceIdentifier":"arn:arc:resource/0000000000000001","startTime":1796169600000,"status":"ACTIVE","zonalShiftId":"00000000-0000-0000-0000-000000000001"}

== a leap day
call 0 0 0 RegisterManagedResource {"name":"r","availabilityZones":["z"]}
call 0 0 0 CreatePracticeRunConfiguration {"resourceIdentifier":"arn:arc:resource/0000000000000001","blockedDates":["2024-02-29"],"outcomeAlarms":[{"alarmIdentifier":"o"}]}
call 0 1709164800000 0 StartPracticeRun {"resourceIdentifier":"arn:arc:resource/0000000000000001","awayFrom":"z","comment":""}
call 0 1709251199999 0 StartPracticeRun {"resourceIdentifier":"arn:arc:resource/0000000000000001","awayFrom":"z","comment":""}
call 0 1709251200000 0 StartPracticeRun {"resourceIdentifier":"arn:arc:resource/0000000000000001","awayFrom":"z","comment":""}
----
slot 0 token 1 200 {"resourceIdentifier":"arn:arc:resource/0000000000000001"}
slot 1 token 2 200 {}
slot 2 token 3 409 {"Cause":"BlockedDate","Reason":"Blocked","__type":"ConflictException"}
slot 3 token 4 409 {"Cause":"BlockedDate","Reason":"Blocked","__type":"ConflictException"}
slot 4 token 5 200 {"awayFrom":"z","comment":"","expiryTime":1709253000000,"practiceRunOutcome":"PENDING","resourceIdentifier":"arn:arc:resource/0000000000000001","startTime":1709251200000,"status":"ACTIVE","zonalShiftId":"00000000-0000-0000-0000-000000000001"}

== the leap day of a year that 400 divides
call 0 0 0 RegisterManagedResource {"name":"r","availabilityZones":["z"]}
call 0 0 0 CreatePracticeRunConfiguration {"resourceIdentifier":"arn:arc:resource/0000000000000001","blockedDates":["2000-02-29"],"outcomeAlarms":[{"alarmIdentifier":"o"}]}
call 0 951782400000 0 StartPracticeRun {"resourceIdentifier":"arn:arc:resource/0000000000000001","awayFrom":"z","comment":""}
call 0 951868799999 0 StartPracticeRun {"resourceIdentifier":"arn:arc:resource/0000000000000001","awayFrom":"z","comment":""}
call 0 951868800000 0 StartPracticeRun {"resourceIdentifier":"arn:arc:resource/0000000000000001","awayFrom":"z","comment":""}
----
slot 0 token 1 200 {"resourceIdentifier":"arn:arc:resource/0000000000000001"}
slot 1 token 2 200 {}
slot 2 token 3 409 {"Cause":"BlockedDate","Reason":"Blocked","__type":"ConflictException"}
slot 3 token 4 409 {"Cause":"BlockedDate","Reason":"Blocked","__type":"ConflictException"}
slot 4 token 5 200 {"awayFrom":"z","comment":"","expiryTime":951870600000,"practiceRunOutcome":"PENDING","resourceIdentifier":"arn:arc:resource/0000000000000001","startTime":951868800000,"status":"ACTIVE","zonalShiftId":"00000000-0000-0000-0000-000000000001"}

== the day before a date isn't blocked
call 0 0 0 RegisterManagedResource {"name":"r","availabilityZones":["z"]}
call 0 0 0 CreatePracticeRunConfiguration {"resourceIdentifier":"arn:arc:resource/0000000000000001","blockedDates":["2024-03-01"],"outcomeAlarms":[{"alarmIdentifier":"o"}]}
call 0 1709251199999 0 StartPracticeRun {"resourceIdentifier":"arn:arc:resource/0000000000000001","awayFrom":"z","comment":""}
----
slot 0 token 1 200 {"resourceIdentifier":"arn:arc:resource/0000000000000001"}
slot 1 token 2 200 {}
slot 2 token 3 200 {"awayFrom":"z","comment":"","expiryTime":1709252999999,"practiceRunOutcome":"PENDING","resourceIdentifier":"arn:arc:resource/0000000000000001","startTime":1709251199999,"status":"ACTIVE","zonalShiftId":"00000000-0000-0000-0000-000000000001"}

== the last date
call 0 0 0 RegisterManagedResource {"name":"r","availabilityZones":["z"]}
call 0 0 0 CreatePracticeRunConfiguration {"resourceIdentifier":"arn:arc:resource/0000000000000001","blockedDates":["9999-12-31"],"outcomeAlarms":[{"alarmIdentifier":"o"}]}
call 0 253402214400000 0 StartPracticeRun {"resourceIdentifier":"arn:arc:resource/0000000000000001","awayFrom":"z","comment":""}
call 0 253402300799999 0 StartPracticeRun {"resourceIdentifier":"arn:arc:resource/0000000000000001","awayFrom":"z","comment":""}
----
slot 0 token 1 200 {"resourceIdentifier":"arn:arc:resource/0000000000000001"}
slot 1 token 2 200 {}
slot 2 token 3 409 {"Cause":"BlockedDate","Reason":"Blocked","__type":"ConflictException"}
slot 3 token 4 409 {"Cause":"BlockedDate","Reason":"Blocked","__type":"ConflictException"}

== a date that is empty
call 0 0 0 UpdatePracticeRunConfiguration {"resourceIdentifier":"arn:arc:resource/0000000000000001","blockedDates":[""]}
---- status 6
script line 1: BadDate

== a date before 1970
call 0 0 0 UpdatePracticeRunConfiguration {"resourceIdentifier":"arn:arc:resource/0000000000000001","blockedDates":["1969-12-31"]}
---- status 6
script line 1: BadDate

== a date of year 0
call 0 0 0 UpdatePracticeRunConfiguration {"resourceIdentifier":"arn:arc:resource/0000000000000001","blockedDates":["0000-01-01"]}
---- status 6
script line 1: BadDate

== a date behind the year 9999
call 0 0 0 UpdatePracticeRunConfiguration {"resourceIdentifier":"arn:arc:resource/0000000000000001","blockedDates":["10000-01-01"]}
---- status 6
script line 1: BadDate

== a date with a sign before its year
call 0 0 0 UpdatePracticeRunConfiguration {"resourceIdentifier":"arn:arc:resource/0000000000000001","blockedDates":["+2026-01-01"]}
---- status 6
script line 1: BadDate

== a date with six digits of its year
call 0 0 0 UpdatePracticeRunConfiguration {"resourceIdentifier":"arn:arc:resource/0000000000000001","blockedDates":["+002026-01-01"]}
---- status 6
script line 1: BadDate

== a date before the year 0
call 0 0 0 UpdatePracticeRunConfiguration {"resourceIdentifier":"arn:arc:resource/0000000000000001","blockedDates":["-026-01-01"]}
---- status 6
script line 1: BadDate

== a date of February 29 in a year without one
call 0 0 0 UpdatePracticeRunConfiguration {"resourceIdentifier":"arn:arc:resource/0000000000000001","blockedDates":["2023-02-29"]}
---- status 6
script line 1: BadDate

== a date of February 29 in a year that 100 divides
call 0 0 0 UpdatePracticeRunConfiguration {"resourceIdentifier":"arn:arc:resource/0000000000000001","blockedDates":["2100-02-29"]}
---- status 6
script line 1: BadDate

== a date of February 30
call 0 0 0 UpdatePracticeRunConfiguration {"resourceIdentifier":"arn:arc:resource/0000000000000001","blockedDates":["2026-02-30"]}
---- status 6
script line 1: BadDate

== a date of April 31
call 0 0 0 UpdatePracticeRunConfiguration {"resourceIdentifier":"arn:arc:resource/0000000000000001","blockedDates":["2026-04-31"]}
---- status 6
script line 1: BadDate

== a date of month 13
call 0 0 0 UpdatePracticeRunConfiguration {"resourceIdentifier":"arn:arc:resource/0000000000000001","blockedDates":["2026-13-01"]}
---- status 6
script line 1: BadDate

== a date of month 0
call 0 0 0 UpdatePracticeRunConfiguration {"resourceIdentifier":"arn:arc:resource/0000000000000001","blockedDates":["2026-00-10"]}
---- status 6
script line 1: BadDate

== a date of day 0
call 0 0 0 UpdatePracticeRunConfiguration {"resourceIdentifier":"arn:arc:resource/0000000000000001","blockedDates":["2026-01-00"]}
---- status 6
script line 1: BadDate

== a date of day 32
call 0 0 0 UpdatePracticeRunConfiguration {"resourceIdentifier":"arn:arc:resource/0000000000000001","blockedDates":["2026-01-32"]}
---- status 6
script line 1: BadDate

== a date with one digit for its month
call 0 0 0 UpdatePracticeRunConfiguration {"resourceIdentifier":"arn:arc:resource/0000000000000001","blockedDates":["2026-1-01"]}
---- status 6
script line 1: BadDate

== a date with one digit for its day
call 0 0 0 UpdatePracticeRunConfiguration {"resourceIdentifier":"arn:arc:resource/0000000000000001","blockedDates":["2026-01-1"]}
---- status 6
script line 1: BadDate

== a date with two digits for its year
call 0 0 0 UpdatePracticeRunConfiguration {"resourceIdentifier":"arn:arc:resource/0000000000000001","blockedDates":["26-01-01"]}
---- status 6
script line 1: BadDate

== a date with a blank behind it
call 0 0 0 UpdatePracticeRunConfiguration {"resourceIdentifier":"arn:arc:resource/0000000000000001","blockedDates":["2026-01-01 "]}
---- status 6
script line 1: BadDate

== a date with a blank before it
call 0 0 0 UpdatePracticeRunConfiguration {"resourceIdentifier":"arn:arc:resource/0000000000000001","blockedDates":[" 2026-01-01"]}
---- status 6
script line 1: BadDate

== a date with slashes
call 0 0 0 UpdatePracticeRunConfiguration {"resourceIdentifier":"arn:arc:resource/0000000000000001","blockedDates":["2026/01/01"]}
---- status 6
script line 1: BadDate

== a date without hyphens
call 0 0 0 UpdatePracticeRunConfiguration {"resourceIdentifier":"arn:arc:resource/0000000000000001","blockedDates":["20260101"]}
---- status 6
script line 1: BadDate

== a date with a time behind it
call 0 0 0 UpdatePracticeRunConfiguration {"resourceIdentifier":"arn:arc:resource/0000000000000001","blockedDates":["2026-01-01T00:00:00Z"]}
---- status 6
script line 1: BadDate

== a date with a time zone behind it
call 0 0 0 UpdatePracticeRunConfiguration {"resourceIdentifier":"arn:arc:resource/0000000000000001","blockedDates":["2026-12-01[UTC]"]}
---- status 6
script line 1: BadDate

== a date by its week
call 0 0 0 UpdatePracticeRunConfiguration {"resourceIdentifier":"arn:arc:resource/0000000000000001","blockedDates":["2026-W01-1"]}
---- status 6
script line 1: BadDate

== a date by its day of the year
call 0 0 0 UpdatePracticeRunConfiguration {"resourceIdentifier":"arn:arc:resource/0000000000000001","blockedDates":["2026-001"]}
---- status 6
script line 1: BadDate

== a date in digits of another script
call 0 0 0 UpdatePracticeRunConfiguration {"resourceIdentifier":"arn:arc:resource/0000000000000001","blockedDates":["٢٠٢٦-٠١-٠١"]}
---- status 6
script line 1: BadDate

== a date that is a number
call 0 0 0 UpdatePracticeRunConfiguration {"resourceIdentifier":"arn:arc:resource/0000000000000001","blockedDates":[0]}
---- status 6
script line 1: WrongType

== a window of one minute on Mon
call 0 0 0 RegisterManagedResource {"name":"r","availabilityZones":["z"]}
call 0 0 0 CreatePracticeRunConfiguration {"resourceIdentifier":"arn:arc:resource/0000000000000001","blockedWindows":["Mon:12:34-Mon:12:35"],"outcomeAlarms":[{"alarmIdentifier":"o"}]}
call 0 390840000 0 StartPracticeRun {"resourceIdentifier":"arn:arc:resource/0000000000000001","awayFrom":"z","comment":""}
call 0 390899999 0 StartPracticeRun {"resourceIdentifier":"arn:arc:resource/0000000000000001","awayFrom":"z","comment":""}
call 0 390900000 0 StartPracticeRun {"resourceIdentifier":"arn:arc:resource/0000000000000001","awayFrom":"z","comment":""}
----
slot 0 token 1 200 {"resourceIdentifier":"arn:arc:resource/0000000000000001"}
slot 1 token 2 200 {}
slot 2 token 3 409 {"Cause":"BlockedWindow","Reason":"Blocked","__type":"ConflictException"}
slot 3 token 4 409 {"Cause":"BlockedWindow","Reason":"Blocked","__type":"ConflictException"}
slot 4 token 5 200 {"awayFrom":"z","comment":"","expiryTime":392700000,"practiceRunOutcome":"PENDING","resourceIdentifier":"arn:arc:resource/0000000000000001","startTime":390900000,"status":"ACTIVE","zonalShiftId":"00000000-0000-0000-0000-000000000001"}

== a window of one minute on Tue
call 0 0 0 RegisterManagedResource {"name":"r","availabilityZones":["z"]}
call 0 0 0 CreatePracticeRunConfiguration {"resourceIdentifier":"arn:arc:resource/0000000000000001","blockedWindows":["Tue:12:34-Tue:12:35"],"outcomeAlarms":[{"alarmIdentifier":"o"}]}
call 0 477240000 0 StartPracticeRun {"resourceIdentifier":"arn:arc:resource/0000000000000001","awayFrom":"z","comment":""}
call 0 477299999 0 StartPracticeRun {"resourceIdentifier":"arn:arc:resource/0000000000000001","awayFrom":"z","comment":""}
call 0 477300000 0 StartPracticeRun {"resourceIdentifier":"arn:arc:resource/0000000000000001","awayFrom":"z","comment":""}
----
slot 0 token 1 200 {"resourceIdentifier":"arn:arc:resource/0000000000000001"}
slot 1 token 2 200 {}
slot 2 token 3 409 {"Cause":"BlockedWindow","Reason":"Blocked","__type":"ConflictException"}
slot 3 token 4 409 {"Cause":"BlockedWindow","Reason":"Blocked","__type":"ConflictException"}
slot 4 token 5 200 {"awayFrom":"z","comment":"","expiryTime":479100000,"practiceRunOutcome":"PENDING","resourceIdentifier":"arn:arc:resource/0000000000000001","startTime":477300000,"status":"ACTIVE","zonalShiftId":"00000000-0000-0000-0000-000000000001"}

== a window of one minute on Wed
call 0 0 0 RegisterManagedResource {"name":"r","availabilityZones":["z"]}
call 0 0 0 CreatePracticeRunConfiguration {"resourceIdentifier":"arn:arc:resource/0000000000000001","blockedWindows":["Wed:12:34-Wed:12:35"],"outcomeAlarms":[{"alarmIdentifier":"o"}]}
call 0 563640000 0 StartPracticeRun {"resourceIdentifier":"arn:arc:resource/0000000000000001","awayFrom":"z","comment":""}
call 0 563699999 0 StartPracticeRun {"resourceIdentifier":"arn:arc:resource/0000000000000001","awayFrom":"z","comment":""}
call 0 563700000 0 StartPracticeRun {"resourceIdentifier":"arn:arc:resource/0000000000000001","awayFrom":"z","comment":""}
----
slot 0 token 1 200 {"resourceIdentifier":"arn:arc:resource/0000000000000001"}
slot 1 token 2 200 {}
slot 2 token 3 409 {"Cause":"BlockedWindow","Reason":"Blocked","__type":"ConflictException"}
slot 3 token 4 409 {"Cause":"BlockedWindow","Reason":"Blocked","__type":"ConflictException"}
slot 4 token 5 200 {"awayFrom":"z","comment":"","expiryTime":565500000,"practiceRunOutcome":"PENDING","resourceIdentifier":"arn:arc:resource/0000000000000001","startTime":563700000,"status":"ACTIVE","zonalShiftId":"00000000-0000-0000-0000-000000000001"}

== a window of one minute on Thu
call 0 0 0 RegisterManagedResource {"name":"r","availabilityZones":["z"]}
call 0 0 0 CreatePracticeRunConfiguration {"resourceIdentifier":"arn:arc:resource/0000000000000001","blockedWindows":["Thu:12:34-Thu:12:35"],"outcomeAlarms":[{"alarmIdentifier":"o"}]}
call 0 650040000 0 StartPracticeRun {"resourceIdentifier":"arn:arc:resource/0000000000000001","awayFrom":"z","comment":""}
call 0 650099999 0 StartPracticeRun {"resourceIdentifier":"arn:arc:resource/0000000000000001","awayFrom":"z","comment":""}
call 0 650100000 0 StartPracticeRun {"resourceIdentifier":"arn:arc:resource/0000000000000001","awayFrom":"z","comment":""}
----
slot 0 token 1 200 {"resourceIdentifier":"arn:arc:resource/0000000000000001"}
slot 1 token 2 200 {}
slot 2 token 3 409 {"Cause":"BlockedWindow","Reason":"Blocked","__type":"ConflictException"}
slot 3 token 4 409 {"Cause":"BlockedWindow","Reason":"Blocked","__type":"ConflictException"}
slot 4 token 5 200 {"awayFrom":"z","comment":"","expiryTime":651900000,"practiceRunOutcome":"PENDING","resourceIdentifier":"arn:arc:resource/0000000000000001","startTime":650100000,"status":"ACTIVE","zonalShiftId":"00000000-0000-0000-0000-000000000001"}

== a window of one minute on Fri
call 0 0 0 RegisterManagedResource {"name":"r","availabilityZones":["z"]}
call 0 0 0 CreatePracticeRunConfiguration {"resourceIdentifier":"arn:arc:resource/0000000000000001","blockedWindows":["Fri:12:34-Fri:12:35"],"outcomeAlarms":[{"alarmIdentifier":"o"}]}
call 0 736440000 0 StartPracticeRun {"resourceIdentifier":"arn:arc:resource/0000000000000001","awayFrom":"z","comment":""}
call 0 736499999 0 StartPracticeRun {"resourceIdentifier":"arn:arc:resource/0000000000000001","awayFrom":"z","comment":""}
call 0 736500000 0 StartPracticeRun {"resourceIdentifier":"arn:arc:resource/0000000000000001","awayFrom":"z","comment":""}
----
slot 0 token 1 200 {"resourceIdentifier":"arn:arc:resource/0000000000000001"}
slot 1 token 2 200 {}
slot 2 token 3 409 {"Cause":"BlockedWindow","Reason":"Blocked","__type":"ConflictException"}
slot 3 token 4 409 {"Cause":"BlockedWindow","Reason":"Blocked","__type":"ConflictException"}
slot 4 token 5 200 {"awayFrom":"z","comment":"","expiryTime":738300000,"practiceRunOutcome":"PENDING","resourceIdentifier":"arn:arc:resource/0000000000000001","startTime":736500000,"status":"ACTIVE","zonalShiftId":"00000000-0000-0000-0000-000000000001"}

== a window of one minute on Sat
call 0 0 0 RegisterManagedResource {"name":"r","availabilityZones":["z"]}
call 0 0 0 CreatePracticeRunConfiguration {"resourceIdentifier":"arn:arc:resource/0000000000000001","blockedWindows":["Sat:12:34-Sat:12:35"],"outcomeAlarms":[{"alarmIdentifier":"o"}]}
call 0 822840000 0 StartPracticeRun {"resourceIdentifier":"arn:arc:resource/0000000000000001","awayFrom":"z","comment":""}
call 0 822899999 0 StartPracticeRun {"resourceIdentifier":"arn:arc:resource/0000000000000001","awayFrom":"z","comment":""}
call 0 822900000 0 StartPracticeRun {"resourceIdentifier":"arn:arc:resource/0000000000000001","awayFrom":"z","comment":""}
----
slot 0 token 1 200 {"resourceIdentifier":"arn:arc:resource/0000000000000001"}
slot 1 token 2 200 {}
slot 2 token 3 409 {"Cause":"BlockedWindow","Reason":"Blocked","__type":"ConflictException"}
slot 3 token 4 409 {"Cause":"BlockedWindow","Reason":"Blocked","__type":"ConflictException"}
slot 4 token 5 200 {"awayFrom":"z","comment":"","expiryTime":824700000,"practiceRunOutcome":"PENDING","resourceIdentifier":"arn:arc:resource/0000000000000001","startTime":822900000,"status":"ACTIVE","zonalShiftId":"00000000-0000-0000-0000-000000000001"}

== a window of one minute on Sun
call 0 0 0 RegisterManagedResource {"name":"r","availabilityZones":["z"]}
call 0 0 0 CreatePracticeRunConfiguration {"resourceIdentifier":"arn:arc:resource/0000000000000001","blockedWindows":["Sun:12:34-Sun:12:35"],"outcomeAlarms":[{"alarmIdentifier":"o"}]}
call 0 909240000 0 StartPracticeRun {"resourceIdentifier":"arn:arc:resource/0000000000000001","awayFrom":"z","comment":""}
call 0 909299999 0 StartPracticeRun {"resourceIdentifier":"arn:arc:resource/0000000000000001","awayFrom":"z","comment":""}
call 0 909300000 0 StartPracticeRun {"resourceIdentifier":"arn:arc:resource/0000000000000001","awayFrom":"z","comment":""}
----
slot 0 token 1 200 {"resourceIdentifier":"arn:arc:resource/0000000000000001"}
slot 1 token 2 200 {}
slot 2 token 3 409 {"Cause":"BlockedWindow","Reason":"Blocked","__type":"ConflictException"}
slot 3 token 4 409 {"Cause":"BlockedWindow","Reason":"Blocked","__type":"ConflictException"}
slot 4 token 5 200 {"awayFrom":"z","comment":"","expiryTime":911100000,"practiceRunOutcome":"PENDING","resourceIdentifier":"arn:arc:resource/0000000000000001","startTime":909300000,"status":"ACTIVE","zonalShiftId":"00000000-0000-0000-0000-000000000001"}

== the minute before a window isn't in it
call 0 0 0 RegisterManagedResource {"name":"r","availabilityZones":["z"]}
call 0 0 0 CreatePracticeRunConfiguration {"resourceIdentifier":"arn:arc:resource/0000000000000001","blockedWindows":["Tue:12:34-Tue:12:35"],"outcomeAlarms":[{"alarmIdentifier":"o"}]}
call 0 477239999 0 StartPracticeRun {"resourceIdentifier":"arn:arc:resource/0000000000000001","awayFrom":"z","comment":""}
----
slot 0 token 1 200 {"resourceIdentifier":"arn:arc:resource/0000000000000001"}
slot 1 token 2 200 {}
slot 2 token 3 200 {"awayFrom":"z","comment":"","expiryTime":479039999,"practiceRunOutcome":"PENDING","resourceIdentifier":"arn:arc:resource/0000000000000001","startTime":477239999,"status":"ACTIVE","zonalShiftId":"00000000-0000-0000-0000-000000000001"}

== a window of all but the last minute of the week
call 0 0 0 RegisterManagedResource {"name":"r","availabilityZones":["z"]}
call 0 0 0 CreatePracticeRunConfiguration {"resourceIdentifier":"arn:arc:resource/0000000000000001","blockedWindows":["Mon:00:00-Sun:23:59"],"outcomeAlarms":[{"alarmIdentifier":"o"}]}
call 0 345600000 0 StartPracticeRun {"resourceIdentifier":"arn:arc:resource/0000000000000001","awayFrom":"z","comment":""}
call 0 950339999 0 StartPracticeRun {"resourceIdentifier":"arn:arc:resource/0000000000000001","awayFrom":"z","comment":""}
call 0 950340000 0 StartPracticeRun {"resourceIdentifier":"arn:arc:resource/0000000000000001","awayFrom":"z","comment":""}
----
slot 0 token 1 200 {"resourceIdentifier":"arn:arc:resource/0000000000000001"}
slot 1 token 2 200 {}
slot 2 token 3 409 {"Cause":"BlockedWindow","Reason":"Blocked","__type":"ConflictException"}
slot 3 token 4 409 {"Cause":"BlockedWindow","Reason":"Blocked","__type":"ConflictException"}
slot 4 token 5 200 {"awayFrom":"z","comment":"","expiryTime":952140000,"practiceRunOutcome":"PENDING","resourceIdentifier":"arn:arc:resource/0000000000000001","startTime":950340000,"status":"ACTIVE","zonalShiftId":"00000000-0000-0000-0000-000000000001"}

== a window of the last minute of the week
call 0 0 0 RegisterManagedResource {"name":"r","availabilityZones":["z"]}
call 0 0 0 CreatePracticeRunConfiguration {"resourceIdentifier":"arn:arc:resource/0000000000000001","blockedWindows":["Sun:23:59-Mon:00:00"],"outcomeAlarms":[{"alarmIdentifier":"o"}]}
call 0 950340000 0 StartPracticeRun {"resourceIdentifier":"arn:arc:resource/0000000000000001","awayFrom":"z","comment":""}
call 0 950400000 0 StartPracticeRun {"resourceIdentifier":"arn:arc:resource/0000000000000001","awayFrom":"z","comment":""}
----
slot 0 token 1 200 {"resourceIdentifier":"arn:arc:resource/0000000000000001"}
slot 1 token 2 200 {}
slot 2 token 3 409 {"Cause":"BlockedWindow","Reason":"Blocked","__type":"ConflictException"}
slot 3 token 4 200 {"awayFrom":"z","comment":"","expiryTime":952200000,"practiceRunOutcome":"PENDING","resourceIdentifier":"arn:arc:resource/0000000000000001","startTime":950400000,"status":"ACTIVE","zonalShiftId":"00000000-0000-0000-0000-000000000001"}

== a window goes round Sunday where it ends before it begins
call 0 0 0 RegisterManagedResource {"name":"r","availabilityZones":["z"]}
call 0 0 0 CreatePracticeRunConfiguration {"resourceIdentifier":"arn:arc:resource/0000000000000001","blockedWindows":["Sun:23:30-Mon:00:30"],"outcomeAlarms":[{"alarmIdentifier":"o"}]}
call 0 948600000 0 StartPracticeRun {"resourceIdentifier":"arn:arc:resource/0000000000000001","awayFrom":"z","comment":""}
call 0 952199999 0 StartPracticeRun {"resourceIdentifier":"arn:arc:resource/0000000000000001","awayFrom":"z","comment":""}
call 0 952200000 0 StartPracticeRun {"resourceIdentifier":"arn:arc:resource/0000000000000001","awayFrom":"z","comment":""}
----
slot 0 token 1 200 {"resourceIdentifier":"arn:arc:resource/0000000000000001"}
slot 1 token 2 200 {}
slot 2 token 3 409 {"Cause":"BlockedWindow","Reason":"Blocked","__type":"ConflictException"}
slot 3 token 4 409 {"Cause":"BlockedWindow","Reason":"Blocked","__type":"ConflictException"}
slot 4 token 5 200 {"awayFrom":"z","comment":"","expiryTime":954000000,"practiceRunOutcome":"PENDING","resourceIdentifier":"arn:arc:resource/0000000000000001","startTime":952200000,"status":"ACTIVE","zonalShiftId":"00000000-0000-0000-0000-000000000001"}

== a window that is empty
call 0 0 0 UpdatePracticeRunConfiguration {"resourceIdentifier":"arn:arc:resource/0000000000000001","blockedWindows":[""]}
---- status 6
script line 1: BadWindow

== a window that begins and ends in one minute
call 0 0 0 UpdatePracticeRunConfiguration {"resourceIdentifier":"arn:arc:resource/0000000000000001","blockedWindows":["Mon:00:00-Mon:00:00"]}
---- status 6
script line 1: BadWindow

== a window by a day in small letters
call 0 0 0 UpdatePracticeRunConfiguration {"resourceIdentifier":"arn:arc:resource/0000000000000001","blockedWindows":["mon:00:00-Tue:00:00"]}
---- status 6
script line 1: BadWindow

== a window by a day in capital letters
call 0 0 0 UpdatePracticeRunConfiguration {"resourceIdentifier":"arn:arc:resource/0000000000000001","blockedWindows":["MON:00:00-Tue:00:00"]}
---- status 6
script line 1: BadWindow

== a window by a whole name of a day
call 0 0 0 UpdatePracticeRunConfiguration {"resourceIdentifier":"arn:arc:resource/0000000000000001","blockedWindows":["Monday:00:00-Tue:00:00"]}
---- status 6
script line 1: BadWindow

== a window by a day in another language
call 0 0 0 UpdatePracticeRunConfiguration {"resourceIdentifier":"arn:arc:resource/0000000000000001","blockedWindows":["Mit:00:00-Tue:00:00"]}
---- status 6
script line 1: BadWindow

== a window by a day with a letter wrong
call 0 0 0 UpdatePracticeRunConfiguration {"resourceIdentifier":"arn:arc:resource/0000000000000001","blockedWindows":["Mod:00:00-Tue:00:00"]}
---- status 6
script line 1: BadWindow

== a window that ends on a day in small letters
call 0 0 0 UpdatePracticeRunConfiguration {"resourceIdentifier":"arn:arc:resource/0000000000000001","blockedWindows":["Mon:00:00-tue:00:00"]}
---- status 6
script line 1: BadWindow

== a window that begins in hour 24
call 0 0 0 UpdatePracticeRunConfiguration {"resourceIdentifier":"arn:arc:resource/0000000000000001","blockedWindows":["Mon:24:00-Tue:00:00"]}
---- status 6
script line 1: BadWindow

== a window that ends in hour 24
call 0 0 0 UpdatePracticeRunConfiguration {"resourceIdentifier":"arn:arc:resource/0000000000000001","blockedWindows":["Mon:00:00-Mon:24:00"]}
---- status 6
script line 1: BadWindow

== a window that begins in minute 60
call 0 0 0 UpdatePracticeRunConfiguration {"resourceIdentifier":"arn:arc:resource/0000000000000001","blockedWindows":["Mon:00:60-Tue:00:00"]}
---- status 6
script line 1: BadWindow

== a window that ends in minute 60
call 0 0 0 UpdatePracticeRunConfiguration {"resourceIdentifier":"arn:arc:resource/0000000000000001","blockedWindows":["Mon:00:00-Tue:00:60"]}
---- status 6
script line 1: BadWindow

== a window with one digit for its hour
call 0 0 0 UpdatePracticeRunConfiguration {"resourceIdentifier":"arn:arc:resource/0000000000000001","blockedWindows":["Mon:0:00-Tue:00:00"]}
---- status 6
script line 1: BadWindow

== a window with one digit for its minute
call 0 0 0 UpdatePracticeRunConfiguration {"resourceIdentifier":"arn:arc:resource/0000000000000001","blockedWindows":["Mon:00:0-Tue:00:00"]}
---- status 6
script line 1: BadWindow

== a window with three digits for its hour
call 0 0 0 UpdatePracticeRunConfiguration {"resourceIdentifier":"arn:arc:resource/0000000000000001","blockedWindows":["Mon:000:00-Tue:00:00"]}
---- status 6
script line 1: BadWindow

== a window with a blank behind it
call 0 0 0 UpdatePracticeRunConfiguration {"resourceIdentifier":"arn:arc:resource/0000000000000001","blockedWindows":["Mon:00:00-Tue:00:00 "]}
---- status 6
script line 1: BadWindow

== a window with a blank before it
call 0 0 0 UpdatePracticeRunConfiguration {"resourceIdentifier":"arn:arc:resource/0000000000000001","blockedWindows":[" Mon:00:00-Tue:00:00"]}
---- status 6
script line 1: BadWindow

== a window with blanks round its hyphen
call 0 0 0 UpdatePracticeRunConfiguration {"resourceIdentifier":"arn:arc:resource/0000000000000001","blockedWindows":["Mon:00:00 - Tue:00:00"]}
---- status 6
script line 1: BadWindow

== a window with a slash for its hyphen
call 0 0 0 UpdatePracticeRunConfiguration {"resourceIdentifier":"arn:arc:resource/0000000000000001","blockedWindows":["Mon:00:00/Tue:00:00"]}
---- status 6
script line 1: BadWindow

== a window with a hyphen for its colon
call 0 0 0 UpdatePracticeRunConfiguration {"resourceIdentifier":"arn:arc:resource/0000000000000001","blockedWindows":["Mon-00:00-Tue:00:00"]}
---- status 6
script line 1: BadWindow

== a window that is cut in half
call 0 0 0 UpdatePracticeRunConfiguration {"resourceIdentifier":"arn:arc:resource/0000000000000001","blockedWindows":["Mon:00:00"]}
---- status 6
script line 1: BadWindow

== a window without its minutes
call 0 0 0 UpdatePracticeRunConfiguration {"resourceIdentifier":"arn:arc:resource/0000000000000001","blockedWindows":["Mon:00-Tue:00"]}
---- status 6
script line 1: BadWindow

== a window of as many letters with a colon at another place
call 0 0 0 UpdatePracticeRunConfiguration {"resourceIdentifier":"arn:arc:resource/0000000000000001","blockedWindows":["Mon:00-Tue:00:00:00"]}
---- status 6
script line 1: BadWindow

== a window with seconds
call 0 0 0 UpdatePracticeRunConfiguration {"resourceIdentifier":"arn:arc:resource/0000000000000001","blockedWindows":["Mon:00:00:00-Tue:00:00:00"]}
---- status 6
script line 1: BadWindow

== a window with a sign
call 0 0 0 UpdatePracticeRunConfiguration {"resourceIdentifier":"arn:arc:resource/0000000000000001","blockedWindows":["Mon:+1:00-Tue:00:00"]}
---- status 6
script line 1: BadWindow

== a window in digits of another script
call 0 0 0 UpdatePracticeRunConfiguration {"resourceIdentifier":"arn:arc:resource/0000000000000001","blockedWindows":["Mon:٠٠:00-Tue:00:00"]}
---- status 6
script line 1: BadWindow

== a window that is an object
call 0 0 0 UpdatePracticeRunConfiguration {"resourceIdentifier":"arn:arc:resource/0000000000000001","blockedWindows":[{}]}
---- status 6
script line 1: WrongType
