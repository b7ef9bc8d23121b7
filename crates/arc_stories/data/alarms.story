# Alarms: values set by a call, of which 256 are red at most.

== an alarm is set by its name alone
call 0 0 0 SetAlarmState {"alarmIdentifier":"errors","state":"ALARM"}
call 0 0 0 SetAlarmState {"alarmIdentifier":"errors","state":"ALARM"}
call 0 0 0 SetAlarmState {"alarmIdentifier":"errors","state":"OK"}
call 0 0 0 SetAlarmState {"alarmIdentifier":"errors","state":"OK"}
----
slot 0 token 1 200 {}
slot 1 token 2 200 {}
slot 2 token 3 200 {}
slot 3 token 4 200 {}

== an alarm that was never set isn't red
call 0 0 0 RegisterManagedResource {"name":"lb","availabilityZones":["az1","az2"]}
call 0 0 0 CreatePracticeRunConfiguration {"resourceIdentifier":"arn:arc:resource/0000000000000001","blockingAlarms":[{"alarmIdentifier":"deploy"}],"outcomeAlarms":[{"alarmIdentifier":"errors"}]}
call 0 0 0 StartPracticeRun {"resourceIdentifier":"arn:arc:resource/0000000000000001","awayFrom":"az1","comment":""}
----
slot 0 token 1 200 {"resourceIdentifier":"arn:arc:resource/0000000000000001"}
slot 1 token 2 200 {}
slot 2 token 3 200 {"awayFrom":"az1","comment":"","expiryTime":1800000,"practiceRunOutcome":"PENDING","resourceIdentifier":"arn:arc:resource/0000000000000001","startTime":0,"status":"ACTIVE","zonalShiftId":"00000000-0000-0000-0000-000000000001"}

== 256 alarms are red at most
call 0 0 0 RegisterManagedResource {"name":"lb","availabilityZones":["az1","az2"]}
loop n 1 256
call 0 0 0 SetAlarmState {"alarmIdentifier":"a{n}","state":"ALARM"}
endloop
call 0 0 0 SetAlarmState {"alarmIdentifier":"b","state":"ALARM"}
# one that is red is set again, and one that isn't is put out
call 0 0 0 SetAlarmState {"alarmIdentifier":"a7","state":"ALARM"}
call 0 0 0 SetAlarmState {"alarmIdentifier":"b","state":"OK"}
call 0 0 0 SetAlarmState {"alarmIdentifier":"a7","state":"OK"}
call 0 0 0 SetAlarmState {"alarmIdentifier":"b","state":"ALARM"}
call 0 0 0 SetAlarmState {"alarmIdentifier":"a7","state":"ALARM"}
----
slot 0 token 1 200 {"resourceIdentifier":"arn:arc:resource/0000000000000001"}
loop n 1 256
slot {n} token {n+1} 200 {}
endloop
slot 257 token 258 402 {"Count":256,"Reason":"Limit","__type":"ServiceLimitExceededException"}
slot 258 token 259 200 {}
slot 259 token 260 200 {}
slot 260 token 261 200 {}
slot 261 token 262 200 {}
slot 262 token 263 402 {"Count":256,"Reason":"Limit","__type":"ServiceLimitExceededException"}

== an alarm beyond the limit fails no run
call 0 0 0 RegisterManagedResource {"name":"lb","availabilityZones":["az1","az2"]}
call 0 0 0 CreatePracticeRunConfiguration {"resourceIdentifier":"arn:arc:resource/0000000000000001","outcomeAlarms":[{"alarmIdentifier":"errors"}]}
call 0 0 0 StartPracticeRun {"resourceIdentifier":"arn:arc:resource/0000000000000001","awayFrom":"az1","comment":""}
loop n 1 256
call 0 0 0 SetAlarmState {"alarmIdentifier":"a{n}","state":"ALARM"}
endloop
call 0 0 0 SetAlarmState {"alarmIdentifier":"errors","state":"ALARM"}
call 0 0 0 ListZonalShifts
call 0 0 0 SetAlarmState {"alarmIdentifier":"a1","state":"OK"}
call 0 0 0 SetAlarmState {"alarmIdentifier":"errors","state":"ALARM"}
call 0 0 0 ListZonalShifts
----
slot 0 token 1 200 {"resourceIdentifier":"arn:arc:resource/0000000000000001"}
slot 1 token 2 200 {}
slot 2 token 3 200 {"awayFrom":"az1","comment":"","expiryTime":1800000,"practiceRunOutcome":"PENDING","resourceIdentifier":"arn:arc:resource/0000000000000001","startTime":0,"status":"ACTIVE","zonalShiftId":"00000000-0000-0000-0000-000000000001"}
loop n 1 256
slot {n+2} token {n+3} 200 {}
endloop
slot 259 token 260 402 {"Count":256,"Reason":"Limit","__type":"ServiceLimitExceededException"}
slot 260 token 261 200 {"items":[{"awayFrom":"az1","comment":"","expiryTime":1800000,"practiceRunOutcome":"PENDING","resourceIdentifier":"arn:arc:resource/0000000000000001","startTime":0,"status":"ACTIVE","zonalShiftId":"00000000-0000-0000-0000-000000000001"}]}
slot 261 token 262 200 {}
slot 262 token 263 200 {}
slot 263 token 264 200 {"items":[{"awayFrom":"az1","comment":"","expiryTime":1800000,"practiceRunOutcome":"FAILED","resourceIdentifier":"arn:arc:resource/0000000000000001","startTime":0,"status":"CANCELED","zonalShiftId":"00000000-0000-0000-0000-000000000001"}]}

== upper case is another alarm
call 0 0 0 RegisterManagedResource {"name":"lb","availabilityZones":["az1","az2"]}
call 0 0 0 CreatePracticeRunConfiguration {"resourceIdentifier":"arn:arc:resource/0000000000000001","outcomeAlarms":[{"alarmIdentifier":"errors"}]}
call 0 0 0 StartPracticeRun {"resourceIdentifier":"arn:arc:resource/0000000000000001","awayFrom":"az1","comment":""}
call 0 0 0 SetAlarmState {"alarmIdentifier":"Errors","state":"ALARM"}
call 0 0 0 ListZonalShifts
----
slot 0 token 1 200 {"resourceIdentifier":"arn:arc:resource/0000000000000001"}
slot 1 token 2 200 {}
slot 2 token 3 200 {"awayFrom":"az1","comment":"","expiryTime":1800000,"practiceRunOutcome":"PENDING","resourceIdentifier":"arn:arc:resource/0000000000000001","startTime":0,"status":"ACTIVE","zonalShiftId":"00000000-0000-0000-0000-000000000001"}
slot 3 token 4 200 {}
slot 4 token 5 200 {"items":[{"awayFrom":"az1","comment":"","expiryTime":1800000,"practiceRunOutcome":"PENDING","resourceIdentifier":"arn:arc:resource/0000000000000001","startTime":0,"status":"ACTIVE","zonalShiftId":"00000000-0000-0000-0000-000000000001"}]}

== an alarm was red before anything was configured
call 0 0 0 SetAlarmState {"alarmIdentifier":"errors","state":"ALARM"}
call 0 0 0 RegisterManagedResource {"name":"lb","availabilityZones":["az1","az2"]}
call 0 0 0 CreatePracticeRunConfiguration {"resourceIdentifier":"arn:arc:resource/0000000000000001","outcomeAlarms":[{"alarmIdentifier":"errors"}]}
call 0 0 0 StartPracticeRun {"resourceIdentifier":"arn:arc:resource/0000000000000001","awayFrom":"az1","comment":""}
----
slot 0 token 1 200 {}
slot 1 token 2 200 {"resourceIdentifier":"arn:arc:resource/0000000000000001"}
slot 2 token 3 200 {}
slot 3 token 4 409 {"Cause":"OutcomeAlarm","Reason":"Blocked","__type":"ConflictException"}

== one alarm may block and fail
call 0 0 0 RegisterManagedResource {"name":"lb","availabilityZones":["az1","az2"]}
call 0 0 0 CreatePracticeRunConfiguration {"resourceIdentifier":"arn:arc:resource/0000000000000001","blockingAlarms":[{"alarmIdentifier":"errors"}],"outcomeAlarms":[{"alarmIdentifier":"errors"}]}
call 0 0 0 SetAlarmState {"alarmIdentifier":"errors","state":"ALARM"}
call 0 0 0 StartPracticeRun {"resourceIdentifier":"arn:arc:resource/0000000000000001","awayFrom":"az1","comment":""}
call 0 0 0 SetAlarmState {"alarmIdentifier":"errors","state":"OK"}
call 0 0 0 StartPracticeRun {"resourceIdentifier":"arn:arc:resource/0000000000000001","awayFrom":"az1","comment":""}
call 0 0 0 SetAlarmState {"alarmIdentifier":"errors","state":"ALARM"}
call 0 0 0 ListZonalShifts
----
slot 0 token 1 200 {"resourceIdentifier":"arn:arc:resource/0000000000000001"}
slot 1 token 2 200 {}
slot 2 token 3 200 {}
slot 3 token 4 409 {"Cause":"BlockingAlarm","Reason":"Blocked","__type":"ConflictException"}
slot 4 token 5 200 {}
slot 5 token 6 200 {"awayFrom":"az1","comment":"","expiryTime":1800000,"practiceRunOutcome":"PENDING","resourceIdentifier":"arn:arc:resource/0000000000000001","startTime":0,"status":"ACTIVE","zonalShiftId":"00000000-0000-0000-0000-000000000001"}
slot 6 token 7 200 {}
slot 7 token 8 200 {"items":[{"awayFrom":"az1","comment":"","expiryTime":1800000,"practiceRunOutcome":"FAILED","resourceIdentifier":"arn:arc:resource/0000000000000001","startTime":0,"status":"CANCELED","zonalShiftId":"00000000-0000-0000-0000-000000000001"}]}

== an alarm's name has 64 bytes at most
call 0 0 0 RegisterManagedResource {"name":"lb","availabilityZones":["az1","az2"]}
call 0 0 0 CreatePracticeRunConfiguration {"resourceIdentifier":"arn:arc:resource/0000000000000001","outcomeAlarms":[{"alarmIdentifier":"aaaaaaaaaaaaaaaaaaaaaaaaaaaaaaaaaaaaaaaaaaaaaaaaaaaaaaaaaaaaaaaa"}]}
call 0 0 0 SetAlarmState {"alarmIdentifier":"aaaaaaaaaaaaaaaaaaaaaaaaaaaaaaaaaaaaaaaaaaaaaaaaaaaaaaaaaaaaaaaa","state":"ALARM"}
call 0 0 0 StartPracticeRun {"resourceIdentifier":"arn:arc:resource/0000000000000001","awayFrom":"az1","comment":""}
----
slot 0 token 1 200 {"resourceIdentifier":"arn:arc:resource/0000000000000001"}
slot 1 token 2 200 {}
slot 2 token 3 200 {}
slot 3 token 4 409 {"Cause":"OutcomeAlarm","Reason":"Blocked","__type":"ConflictException"}

== a name of 65 bytes is no alarm's
call 0 0 0 SetAlarmState {"alarmIdentifier":"aaaaaaaaaaaaaaaaaaaaaaaaaaaaaaaaaaaaaaaaaaaaaaaaaaaaaaaaaaaaaaaaa","state":"ALARM"}
---- status 6
script line 1: BadName

== an empty name is no alarm's
call 0 0 0 SetAlarmState {"alarmIdentifier":"","state":"ALARM"}
---- status 6
script line 1: BadName

== a state is OK or ALARM
call 0 0 0 SetAlarmState {"alarmIdentifier":"errors","state":"RED"}
---- status 6
script line 1: BadStatus

== a state is in upper case
call 0 0 0 SetAlarmState {"alarmIdentifier":"errors","state":"ok"}
---- status 6
script line 1: BadStatus
