# 1,024 shifts and runs are kept. A start beyond forgets the ended one of least identifier.

== the oldest shift is forgotten for one more
call 0 0 0 RegisterManagedResource {"name":"lb","availabilityZones":["az1","az2"]}
loop n 0 1023
call 0 0 0 StartZonalShift {"resourceIdentifier":"arn:arc:resource/0000000000000001","awayFrom":"az1","expiresIn":"1m","comment":""}
call 0 0 0 CancelZonalShift {"zonalShiftId":"00000000-0000-0000-0000-{n+1:012x}"}
endloop
# all 1,024 are kept
call 0 0 0 CancelZonalShift {"zonalShiftId":"00000000-0000-0000-0000-000000000001"}
call 0 0 0 StartZonalShift {"resourceIdentifier":"arn:arc:resource/0000000000000001","awayFrom":"az1","expiresIn":"30m","comment":""}
call 0 0 0 CancelZonalShift {"zonalShiftId":"00000000-0000-0000-0000-000000000001"}
call 0 0 0 CancelZonalShift {"zonalShiftId":"00000000-0000-0000-0000-000000000002"}
call 0 0 0 UpdateZonalShift {"zonalShiftId":"00000000-0000-0000-0000-000000000001","comment":"x"}
call 0 0 0 UpdateZonalShift {"zonalShiftId":"00000000-0000-0000-0000-000000000002","comment":"x"}
# the next start forgets the next one
call 0 0 0 CancelZonalShift {"zonalShiftId":"00000000-0000-0000-0000-000000000401"}
call 0 0 0 StartZonalShift {"resourceIdentifier":"arn:arc:resource/0000000000000001","awayFrom":"az1","expiresIn":"1m","comment":""}
call 0 0 0 CancelZonalShift {"zonalShiftId":"00000000-0000-0000-0000-000000000002"}
call 0 0 0 CancelZonalShift {"zonalShiftId":"00000000-0000-0000-0000-000000000003"}
----
slot 0 token 1 200 {"resourceIdentifier":"arn:arc:resource/0000000000000001"}
loop n 0 1023
slot {2n+1} token {2n+2} 200 {"awayFrom":"az1","comment":"","expiryTime":60000,"resourceIdentifier":"arn:arc:resource/0000000000000001","startTime":0,"status":"ACTIVE","zonalShiftId":"00000000-0000-0000-0000-{n+1:012x}"}
slot {2n+2} token {2n+3} 200 {"awayFrom":"az1","comment":"","expiryTime":60000,"resourceIdentifier":"arn:arc:resource/0000000000000001","startTime":0,"status":"CANCELED","zonalShiftId":"00000000-0000-0000-0000-{n+1:012x}"}
endloop
slot 2049 token 2050 409 {"Reason":"NotActive","Status":"CANCELED","__type":"ConflictException"}
slot 2050 token 2051 200 {"awayFrom":"az1","comment":"","expiryTime":1800000,"resourceIdentifier":"arn:arc:resource/0000000000000001","startTime":0,"status":"ACTIVE","zonalShiftId":"00000000-0000-0000-0000-000000000401"}
slot 2051 token 2052 404 {"Reason":"NotFound","Resource":"00000000-0000-0000-0000-000000000001","__type":"ResourceNotFoundException"}
slot 2052 token 2053 409 {"Reason":"NotActive","Status":"CANCELED","__type":"ConflictException"}
slot 2053 token 2054 404 {"Reason":"NotFound","Resource":"00000000-0000-0000-0000-000000000001","__type":"ResourceNotFoundException"}
slot 2054 token 2055 409 {"Reason":"NotActive","Status":"CANCELED","__type":"ConflictException"}
slot 2055 token 2056 200 {"awayFrom":"az1","comment":"","expiryTime":1800000,"resourceIdentifier":"arn:arc:resource/0000000000000001","startTime":0,"status":"CANCELED","zonalShiftId":"00000000-0000-0000-0000-000000000401"}
slot 2056 token 2057 200 {"awayFrom":"az1","comment":"","expiryTime":60000,"resourceIdentifier":"arn:arc:resource/0000000000000001","startTime":0,"status":"ACTIVE","zonalShiftId":"00000000-0000-0000-0000-000000000402"}
slot 2057 token 2058 404 {"Reason":"NotFound","Resource":"00000000-0000-0000-0000-000000000002","__type":"ResourceNotFoundException"}
slot 2058 token 2059 409 {"Reason":"NotActive","Status":"CANCELED","__type":"ConflictException"}

== the oldest run is forgotten for one more
call 0 0 0 RegisterManagedResource {"name":"lb","availabilityZones":["az1","az2"]}
call 0 0 0 CreatePracticeRunConfiguration {"resourceIdentifier":"arn:arc:resource/0000000000000001","outcomeAlarms":[{"alarmIdentifier":"errors"}]}
call 0 0 0 StartPracticeRun {"resourceIdentifier":"arn:arc:resource/0000000000000001","awayFrom":"az1","comment":""}
call 0 0 0 CancelPracticeRun {"zonalShiftId":"00000000-0000-0000-0000-000000000001"}
loop n 0 1022
call 0 {60000n} 0 StartZonalShift {"resourceIdentifier":"arn:arc:resource/0000000000000001","awayFrom":"az1","expiresIn":"1m","comment":""}
endloop
call 0 0 0 CancelPracticeRun {"zonalShiftId":"00000000-0000-0000-0000-000000000001"}
call 0 61380000 0 StartZonalShift {"resourceIdentifier":"arn:arc:resource/0000000000000001","awayFrom":"az1","expiresIn":"30m","comment":""}
call 0 0 0 CancelPracticeRun {"zonalShiftId":"00000000-0000-0000-0000-000000000001"}
call 0 0 0 CancelZonalShift {"zonalShiftId":"00000000-0000-0000-0000-000000000002"}
----
slot 0 token 1 200 {"resourceIdentifier":"arn:arc:resource/0000000000000001"}
slot 1 token 2 200 {}
slot 2 token 3 200 {"awayFrom":"az1","comment":"","expiryTime":1800000,"practiceRunOutcome":"PENDING","resourceIdentifier":"arn:arc:resource/0000000000000001","startTime":0,"status":"ACTIVE","zonalShiftId":"00000000-0000-0000-0000-000000000001"}
slot 3 token 4 200 {"awayFrom":"az1","comment":"","expiryTime":1800000,"practiceRunOutcome":"INTERRUPTED","resourceIdentifier":"arn:arc:resource/0000000000000001","startTime":0,"status":"CANCELED","zonalShiftId":"00000000-0000-0000-0000-000000000001"}
loop n 0 1022
slot {n+4} token {n+5} 200 {"awayFrom":"az1","comment":"","expiryTime":{60000n+60000},"resourceIdentifier":"arn:arc:resource/0000000000000001","startTime":{60000n},"status":"ACTIVE","zonalShiftId":"00000000-0000-0000-0000-{n+2:012x}"}
endloop
slot 1027 token 1028 409 {"Reason":"NotActive","Status":"CANCELED","__type":"ConflictException"}
slot 1028 token 1029 200 {"awayFrom":"az1","comment":"","expiryTime":63180000,"resourceIdentifier":"arn:arc:resource/0000000000000001","startTime":61380000,"status":"ACTIVE","zonalShiftId":"00000000-0000-0000-0000-000000000401"}
slot 1029 token 1030 404 {"Reason":"NotFound","Resource":"00000000-0000-0000-0000-000000000001","__type":"ResourceNotFoundException"}
slot 1030 token 1031 409 {"Reason":"NotActive","Status":"EXPIRED","__type":"ConflictException"}

== a refused start forgets nothing, and a run's start forgets too
call 0 0 0 RegisterManagedResource {"name":"lb","availabilityZones":["az1","az2"]}
call 0 0 0 CreatePracticeRunConfiguration {"resourceIdentifier":"arn:arc:resource/0000000000000001","blockingAlarms":[{"alarmIdentifier":"deploy"}],"outcomeAlarms":[{"alarmIdentifier":"errors"}]}
call 0 0 0 SetAlarmState {"alarmIdentifier":"deploy","state":"ALARM"}
loop n 0 1023
call 0 {60000n} 0 StartZonalShift {"resourceIdentifier":"arn:arc:resource/0000000000000001","awayFrom":"az1","expiresIn":"1m","comment":""}
endloop
call 0 61380000 0 StartZonalShift {"resourceIdentifier":"arn:arc:resource/0000000000000002","awayFrom":"az1","expiresIn":"1m","comment":""}
call 0 61380000 0 StartZonalShift {"resourceIdentifier":"arn:arc:resource/0000000000000001","awayFrom":"az3","expiresIn":"1m","comment":""}
call 0 61380000 0 StartZonalShift {"resourceIdentifier":"arn:arc:resource/0000000000000001","awayFrom":"az1","expiresIn":"1m","comment":""}
call 0 61380000 0 StartPracticeRun {"resourceIdentifier":"arn:arc:resource/0000000000000001","awayFrom":"az1","comment":""}
call 0 61440000 0 StartPracticeRun {"resourceIdentifier":"arn:arc:resource/0000000000000001","awayFrom":"az1","comment":""}
call 0 61440000 0 CancelZonalShift {"zonalShiftId":"00000000-0000-0000-0000-000000000001"}
call 0 61440000 0 SetAlarmState {"alarmIdentifier":"deploy","state":"OK"}
call 0 61440000 0 StartPracticeRun {"resourceIdentifier":"arn:arc:resource/0000000000000001","awayFrom":"az1","comment":""}
call 0 61440000 0 CancelZonalShift {"zonalShiftId":"00000000-0000-0000-0000-000000000001"}
call 0 61440000 0 CancelZonalShift {"zonalShiftId":"00000000-0000-0000-0000-000000000002"}
----
slot 0 token 1 200 {"resourceIdentifier":"arn:arc:resource/0000000000000001"}
slot 1 token 2 200 {}
slot 2 token 3 200 {}
loop n 0 1023
slot {n+3} token {n+4} 200 {"awayFrom":"az1","comment":"","expiryTime":{60000n+60000},"resourceIdentifier":"arn:arc:resource/0000000000000001","startTime":{60000n},"status":"ACTIVE","zonalShiftId":"00000000-0000-0000-0000-{n+1:012x}"}
endloop
slot 1027 token 1028 404 {"Reason":"NotFound","Resource":"arn:arc:resource/0000000000000002","__type":"ResourceNotFoundException"}
slot 1028 token 1029 400 {"AwayFrom":"az3","Reason":"WrongZone","__type":"ValidationException"}
slot 1029 token 1030 409 {"By":"CUSTOMER","Reason":"Busy","__type":"ConflictException"}
slot 1030 token 1031 409 {"By":"CUSTOMER","Reason":"Busy","__type":"ConflictException"}
slot 1031 token 1032 409 {"Cause":"BlockingAlarm","Reason":"Blocked","__type":"ConflictException"}
slot 1032 token 1033 409 {"Reason":"NotActive","Status":"EXPIRED","__type":"ConflictException"}
slot 1033 token 1034 200 {}
slot 1034 token 1035 200 {"awayFrom":"az1","comment":"","expiryTime":63240000,"practiceRunOutcome":"PENDING","resourceIdentifier":"arn:arc:resource/0000000000000001","startTime":61440000,"status":"ACTIVE","zonalShiftId":"00000000-0000-0000-0000-000000000401"}
slot 1035 token 1036 404 {"Reason":"NotFound","Resource":"00000000-0000-0000-0000-000000000001","__type":"ResourceNotFoundException"}
slot 1036 token 1037 409 {"Reason":"NotActive","Status":"EXPIRED","__type":"ConflictException"}

== what isn't over is kept, however old
call 0 0 0 RegisterManagedResource {"name":"lb","availabilityZones":["az1","az2"]}
call 0 0 0 RegisterManagedResource {"name":"api","availabilityZones":["az1","az2"]}
call 0 0 0 RegisterManagedResource {"name":"web","availabilityZones":["az1","az2"]}
call 0 0 0 RegisterManagedResource {"name":"db","availabilityZones":["az1","az2"]}
call 0 0 0 CreatePracticeRunConfiguration {"resourceIdentifier":"arn:arc:resource/0000000000000002","outcomeAlarms":[{"alarmIdentifier":"errors"}]}
call 0 0 0 CreatePracticeRunConfiguration {"resourceIdentifier":"arn:arc:resource/0000000000000003","outcomeAlarms":[{"alarmIdentifier":"errors"}]}
call 0 0 0 StartZonalShift {"resourceIdentifier":"arn:arc:resource/0000000000000001","awayFrom":"az1","expiresIn":"1m","comment":""}
call 0 0 0 StartPracticeRun {"resourceIdentifier":"arn:arc:resource/0000000000000002","awayFrom":"az1","comment":""}
call 0 0 0 StartPracticeRun {"resourceIdentifier":"arn:arc:resource/0000000000000003","awayFrom":"az1","comment":""}
loop n 0 1020
call 0 0 0 StartZonalShift {"resourceIdentifier":"arn:arc:resource/0000000000000004","awayFrom":"az1","expiresIn":"1m","comment":""}
call 0 0 0 CancelZonalShift {"zonalShiftId":"00000000-0000-0000-0000-{n+4:012x}"}
endloop
# shift 1 is active until 60000, so shift 4 is forgotten first
call 0 59999 0 StartZonalShift {"resourceIdentifier":"arn:arc:resource/0000000000000004","awayFrom":"az1","expiresIn":"1m","comment":""}
call 0 59999 0 CancelZonalShift {"zonalShiftId":"00000000-0000-0000-0000-000000000004"}
call 0 60000 0 StartZonalShift {"resourceIdentifier":"arn:arc:resource/0000000000000001","awayFrom":"az1","expiresIn":"1m","comment":""}
call 0 60000 0 CancelZonalShift {"zonalShiftId":"00000000-0000-0000-0000-000000000001"}
call 0 60000 0 CancelZonalShift {"zonalShiftId":"00000000-0000-0000-0000-000000000005"}
# a shift that interrupts run 2 forgets shift 5 before that
call 0 1799999 0 StartZonalShift {"resourceIdentifier":"arn:arc:resource/0000000000000002","awayFrom":"az1","expiresIn":"1m","comment":""}
call 0 1799999 0 CancelZonalShift {"zonalShiftId":"00000000-0000-0000-0000-000000000005"}
call 0 1799999 0 CancelPracticeRun {"zonalShiftId":"00000000-0000-0000-0000-000000000002"}
# then run 2 is the oldest that is over, and run 3 the next
call 0 1800000 0 StartZonalShift {"resourceIdentifier":"arn:arc:resource/0000000000000001","awayFrom":"az1","expiresIn":"1m","comment":""}
call 0 1800000 0 CancelPracticeRun {"zonalShiftId":"00000000-0000-0000-0000-000000000002"}
call 0 1800000 0 CancelPracticeRun {"zonalShiftId":"00000000-0000-0000-0000-000000000003"}
call 0 1800000 0 StartPracticeRun {"resourceIdentifier":"arn:arc:resource/0000000000000003","awayFrom":"az1","comment":""}
call 0 1800000 0 CancelPracticeRun {"zonalShiftId":"00000000-0000-0000-0000-000000000003"}
call 0 1800000 0 CancelZonalShift {"zonalShiftId":"00000000-0000-0000-0000-000000000006"}
----
slot 0 token 1 200 {"resourceIdentifier":"arn:arc:resource/0000000000000001"}
slot 1 token 2 200 {"resourceIdentifier":"arn:arc:resource/0000000000000002"}
slot 2 token 3 200 {"resourceIdentifier":"arn:arc:resource/0000000000000003"}
slot 3 token 4 200 {"resourceIdentifier":"arn:arc:resource/0000000000000004"}
slot 4 token 5 200 {}
slot 5 token 6 200 {}
slot 6 token 7 200 {"awayFrom":"az1","comment":"","expiryTime":60000,"resourceIdentifier":"arn:arc:resource/0000000000000001","startTime":0,"status":"ACTIVE","zonalShiftId":"00000000-0000-0000-0000-000000000001"}
slot 7 token 8 200 {"awayFrom":"az1","comment":"","expiryTime":1800000,"practiceRunOutcome":"PENDING","resourceIdentifier":"arn:arc:resource/0000000000000002","startTime":0,"status":"ACTIVE","zonalShiftId":"00000000-0000-0000-0000-000000000002"}
slot 8 token 9 200 {"awayFrom":"az1","comment":"","expiryTime":1800000,"practiceRunOutcome":"PENDING","resourceIdentifier":"arn:arc:resource/0000000000000003","startTime":0,"status":"ACTIVE","zonalShiftId":"00000000-0000-0000-0000-000000000003"}
loop n 0 1020
slot {2n+9} token {2n+10} 200 {"awayFrom":"az1","comment":"","expiryTime":60000,"resourceIdentifier":"arn:arc:resource/0000000000000004","startTime":0,"status":"ACTIVE","zonalShiftId":"00000000-0000-0000-0000-{n+4:012x}"}
slot {2n+10} token {2n+11} 200 {"awayFrom":"az1","comment":"","expiryTime":60000,"resourceIdentifier":"arn:arc:resource/0000000000000004","startTime":0,"status":"CANCELED","zonalShiftId":"00000000-0000-0000-0000-{n+4:012x}"}
endloop
slot 2051 token 2052 200 {"awayFrom":"az1","comment":"","expiryTime":119999,"resourceIdentifier":"arn:arc:resource/0000000000000004","startTime":59999,"status":"ACTIVE","zonalShiftId":"00000000-0000-0000-0000-000000000401"}
slot 2052 token 2053 404 {"Reason":"NotFound","Resource":"00000000-0000-0000-0000-000000000004","__type":"ResourceNotFoundException"}
slot 2053 token 2054 200 {"awayFrom":"az1","comment":"","expiryTime":120000,"resourceIdentifier":"arn:arc:resource/0000000000000001","startTime":60000,"status":"ACTIVE","zonalShiftId":"00000000-0000-0000-0000-000000000402"}
slot 2054 token 2055 404 {"Reason":"NotFound","Resource":"00000000-0000-0000-0000-000000000001","__type":"ResourceNotFoundException"}
slot 2055 token 2056 409 {"Reason":"NotActive","Status":"CANCELED","__type":"ConflictException"}
slot 2056 token 2057 200 {"awayFrom":"az1","comment":"","expiryTime":1859999,"resourceIdentifier":"arn:arc:resource/0000000000000002","startTime":1799999,"status":"ACTIVE","zonalShiftId":"00000000-0000-0000-0000-000000000403"}
slot 2057 token 2058 404 {"Reason":"NotFound","Resource":"00000000-0000-0000-0000-000000000005","__type":"ResourceNotFoundException"}
slot 2058 token 2059 409 {"Reason":"NotActive","Status":"CANCELED","__type":"ConflictException"}
slot 2059 token 2060 200 {"awayFrom":"az1","comment":"","expiryTime":1860000,"resourceIdentifier":"arn:arc:resource/0000000000000001","startTime":1800000,"status":"ACTIVE","zonalShiftId":"00000000-0000-0000-0000-000000000404"}
slot 2060 token 2061 404 {"Reason":"NotFound","Resource":"00000000-0000-0000-0000-000000000002","__type":"ResourceNotFoundException"}
slot 2061 token 2062 409 {"Reason":"NotActive","Status":"EXPIRED","__type":"ConflictException"}
slot 2062 token 2063 200 {"awayFrom":"az1","comment":"","expiryTime":3600000,"practiceRunOutcome":"PENDING","resourceIdentifier":"arn:arc:resource/0000000000000003","startTime":1800000,"status":"ACTIVE","zonalShiftId":"00000000-0000-0000-0000-000000000405"}
slot 2063 token 2064 404 {"Reason":"NotFound","Resource":"00000000-0000-0000-0000-000000000003","__type":"ResourceNotFoundException"}
slot 2064 token 2065 409 {"Reason":"NotActive","Status":"CANCELED","__type":"ConflictException"}
