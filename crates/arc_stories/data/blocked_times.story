# Blocked dates and windows: when a practice run doesn't start. Times are UTC; day 0 is Thursday, 1970-01-01.

== a date comes first, then a window, a blocking alarm and an outcome alarm
call 0 0 0 RegisterManagedResource {"name":"lb","availabilityZones":["az1","az2"]}
call 0 0 0 CreatePracticeRunConfiguration {"resourceIdentifier":"arn:arc:resource/0000000000000001","blockedDates":["1970-01-05"],"blockedWindows":["Sun:23:30-Mon:00:31"],"blockingAlarms":[{"alarmIdentifier":"deploy"}],"outcomeAlarms":[{"alarmIdentifier":"errors"}]}
call 0 0 0 SetAlarmState {"alarmIdentifier":"errors","state":"ALARM"}
call 0 0 0 SetAlarmState {"alarmIdentifier":"deploy","state":"ALARM"}
call 0 347400000 0 StartPracticeRun {"resourceIdentifier":"arn:arc:resource/0000000000000001","awayFrom":"az1","comment":""}
call 0 347400000 0 UpdatePracticeRunConfiguration {"resourceIdentifier":"arn:arc:resource/0000000000000001","blockedDates":[]}
call 0 347400000 0 StartPracticeRun {"resourceIdentifier":"arn:arc:resource/0000000000000001","awayFrom":"az1","comment":""}
call 0 347400000 0 UpdatePracticeRunConfiguration {"resourceIdentifier":"arn:arc:resource/0000000000000001","blockedWindows":[]}
call 0 347400000 0 StartPracticeRun {"resourceIdentifier":"arn:arc:resource/0000000000000001","awayFrom":"az1","comment":""}
call 0 347400000 0 SetAlarmState {"alarmIdentifier":"deploy","state":"OK"}
call 0 347400000 0 StartPracticeRun {"resourceIdentifier":"arn:arc:resource/0000000000000001","awayFrom":"az1","comment":""}
call 0 347400000 0 SetAlarmState {"alarmIdentifier":"errors","state":"OK"}
call 0 347400000 0 StartPracticeRun {"resourceIdentifier":"arn:arc:resource/0000000000000001","awayFrom":"az1","comment":""}
----
slot 0 token 1 200 {"resourceIdentifier":"arn:arc:resource/0000000000000001"}
slot 1 token 2 200 {}
slot 2 token 3 200 {}
slot 3 token 4 200 {}
slot 4 token 5 409 {"Cause":"BlockedDate","Reason":"Blocked","__type":"ConflictException"}
slot 5 token 6 200 {}
slot 6 token 7 409 {"Cause":"BlockedWindow","Reason":"Blocked","__type":"ConflictException"}
slot 7 token 8 200 {}
slot 8 token 9 409 {"Cause":"BlockingAlarm","Reason":"Blocked","__type":"ConflictException"}
slot 9 token 10 200 {}
slot 10 token 11 409 {"Cause":"OutcomeAlarm","Reason":"Blocked","__type":"ConflictException"}
slot 11 token 12 200 {}
slot 12 token 13 200 {"awayFrom":"az1","comment":"","expiryTime":349200000,"practiceRunOutcome":"PENDING","resourceIdentifier":"arn:arc:resource/0000000000000001","startTime":347400000,"status":"ACTIVE","zonalShiftId":"00000000-0000-0000-0000-000000000001"}

== a date covers its window, and the window goes on after it
call 0 0 0 RegisterManagedResource {"name":"lb","availabilityZones":["az1","az2"]}
call 0 0 0 CreatePracticeRunConfiguration {"resourceIdentifier":"arn:arc:resource/0000000000000001","blockedDates":["1970-01-04"],"blockedWindows":["Sun:23:30-Mon:00:30"],"outcomeAlarms":[{"alarmIdentifier":"errors"}]}
# Sunday 00:00 and 23:30, Monday 00:29 and 00:30
call 0 259200000 0 StartPracticeRun {"resourceIdentifier":"arn:arc:resource/0000000000000001","awayFrom":"az1","comment":""}
call 0 343800000 0 StartPracticeRun {"resourceIdentifier":"arn:arc:resource/0000000000000001","awayFrom":"az1","comment":""}
call 0 347340000 0 StartPracticeRun {"resourceIdentifier":"arn:arc:resource/0000000000000001","awayFrom":"az1","comment":""}
call 0 347400000 0 StartPracticeRun {"resourceIdentifier":"arn:arc:resource/0000000000000001","awayFrom":"az1","comment":""}
----
slot 0 token 1 200 {"resourceIdentifier":"arn:arc:resource/0000000000000001"}
slot 1 token 2 200 {}
slot 2 token 3 409 {"Cause":"BlockedDate","Reason":"Blocked","__type":"ConflictException"}
slot 3 token 4 409 {"Cause":"BlockedDate","Reason":"Blocked","__type":"ConflictException"}
slot 4 token 5 409 {"Cause":"BlockedWindow","Reason":"Blocked","__type":"ConflictException"}
slot 5 token 6 200 {"awayFrom":"az1","comment":"","expiryTime":349200000,"practiceRunOutcome":"PENDING","resourceIdentifier":"arn:arc:resource/0000000000000001","startTime":347400000,"status":"ACTIVE","zonalShiftId":"00000000-0000-0000-0000-000000000001"}

== an outcome alarm blocks alone, and a blocking alarm goes before it
call 0 0 0 RegisterManagedResource {"name":"lb","availabilityZones":["az1","az2"]}
call 0 0 0 CreatePracticeRunConfiguration {"resourceIdentifier":"arn:arc:resource/0000000000000001","blockedDates":["1970-01-04"],"blockedWindows":["Sun:23:30-Mon:00:30"],"blockingAlarms":[{"alarmIdentifier":"deploy"}],"outcomeAlarms":[{"alarmIdentifier":"errors"}]}
call 0 0 0 SetAlarmState {"alarmIdentifier":"errors","state":"ALARM"}
call 0 0 0 StartPracticeRun {"resourceIdentifier":"arn:arc:resource/0000000000000001","awayFrom":"az1","comment":""}
call 0 0 0 SetAlarmState {"alarmIdentifier":"deploy","state":"ALARM"}
call 0 0 0 StartPracticeRun {"resourceIdentifier":"arn:arc:resource/0000000000000001","awayFrom":"az1","comment":""}
# a date and a window block before both
call 0 259200000 0 StartPracticeRun {"resourceIdentifier":"arn:arc:resource/0000000000000001","awayFrom":"az1","comment":""}
call 0 343800000 0 StartPracticeRun {"resourceIdentifier":"arn:arc:resource/0000000000000001","awayFrom":"az1","comment":""}
call 0 347340000 0 StartPracticeRun {"resourceIdentifier":"arn:arc:resource/0000000000000001","awayFrom":"az1","comment":""}
call 0 347400000 0 StartPracticeRun {"resourceIdentifier":"arn:arc:resource/0000000000000001","awayFrom":"az1","comment":""}
----
slot 0 token 1 200 {"resourceIdentifier":"arn:arc:resource/0000000000000001"}
slot 1 token 2 200 {}
slot 2 token 3 200 {}
slot 3 token 4 409 {"Cause":"OutcomeAlarm","Reason":"Blocked","__type":"ConflictException"}
slot 4 token 5 200 {}
slot 5 token 6 409 {"Cause":"BlockingAlarm","Reason":"Blocked","__type":"ConflictException"}
slot 6 token 7 409 {"Cause":"BlockedDate","Reason":"Blocked","__type":"ConflictException"}
slot 7 token 8 409 {"Cause":"BlockedDate","Reason":"Blocked","__type":"ConflictException"}
slot 8 token 9 409 {"Cause":"BlockedWindow","Reason":"Blocked","__type":"ConflictException"}
slot 9 token 10 409 {"Cause":"BlockingAlarm","Reason":"Blocked","__type":"ConflictException"}

== one red alarm of several blocks
call 0 0 0 RegisterManagedResource {"name":"lb","availabilityZones":["az1","az2"]}
call 0 0 0 CreatePracticeRunConfiguration {"resourceIdentifier":"arn:arc:resource/0000000000000001","blockingAlarms":[{"alarmIdentifier":"a"},{"alarmIdentifier":"b"},{"alarmIdentifier":"c"},{"alarmIdentifier":"d"}],"outcomeAlarms":[{"alarmIdentifier":"e"},{"alarmIdentifier":"f"},{"alarmIdentifier":"g"},{"alarmIdentifier":"h"}]}
call 0 0 0 SetAlarmState {"alarmIdentifier":"h","state":"ALARM"}
call 0 0 0 StartPracticeRun {"resourceIdentifier":"arn:arc:resource/0000000000000001","awayFrom":"az1","comment":""}
call 0 0 0 SetAlarmState {"alarmIdentifier":"d","state":"ALARM"}
call 0 0 0 StartPracticeRun {"resourceIdentifier":"arn:arc:resource/0000000000000001","awayFrom":"az1","comment":""}
call 0 0 0 SetAlarmState {"alarmIdentifier":"h","state":"OK"}
call 0 0 0 StartPracticeRun {"resourceIdentifier":"arn:arc:resource/0000000000000001","awayFrom":"az1","comment":""}
call 0 0 0 SetAlarmState {"alarmIdentifier":"d","state":"OK"}
call 0 0 0 StartPracticeRun {"resourceIdentifier":"arn:arc:resource/0000000000000001","awayFrom":"az1","comment":""}
----
slot 0 token 1 200 {"resourceIdentifier":"arn:arc:resource/0000000000000001"}
slot 1 token 2 200 {}
slot 2 token 3 200 {}
slot 3 token 4 409 {"Cause":"OutcomeAlarm","Reason":"Blocked","__type":"ConflictException"}
slot 4 token 5 200 {}
slot 5 token 6 409 {"Cause":"BlockingAlarm","Reason":"Blocked","__type":"ConflictException"}
slot 6 token 7 200 {}
slot 7 token 8 409 {"Cause":"BlockingAlarm","Reason":"Blocked","__type":"ConflictException"}
slot 8 token 9 200 {}
slot 9 token 10 200 {"awayFrom":"az1","comment":"","expiryTime":1800000,"practiceRunOutcome":"PENDING","resourceIdentifier":"arn:arc:resource/0000000000000001","startTime":0,"status":"ACTIVE","zonalShiftId":"00000000-0000-0000-0000-000000000001"}

== a date blocks from its first millisecond to its last
call 0 0 0 RegisterManagedResource {"name":"lb","availabilityZones":["az1","az2"]}
call 0 0 0 CreatePracticeRunConfiguration {"resourceIdentifier":"arn:arc:resource/0000000000000001","blockedDates":["1970-01-04"],"outcomeAlarms":[{"alarmIdentifier":"errors"}]}
call 0 259199999 0 StartPracticeRun {"resourceIdentifier":"arn:arc:resource/0000000000000001","awayFrom":"az1","comment":""}
call 0 259199999 0 CancelPracticeRun {"zonalShiftId":"00000000-0000-0000-0000-000000000001"}
call 0 259200000 0 StartPracticeRun {"resourceIdentifier":"arn:arc:resource/0000000000000001","awayFrom":"az1","comment":""}
call 0 345599999 0 StartPracticeRun {"resourceIdentifier":"arn:arc:resource/0000000000000001","awayFrom":"az1","comment":""}
call 0 345600000 0 StartPracticeRun {"resourceIdentifier":"arn:arc:resource/0000000000000001","awayFrom":"az1","comment":""}
----
slot 0 token 1 200 {"resourceIdentifier":"arn:arc:resource/0000000000000001"}
slot 1 token 2 200 {}
slot 2 token 3 200 {"awayFrom":"az1","comment":"","expiryTime":260999999,"practiceRunOutcome":"PENDING","resourceIdentifier":"arn:arc:resource/0000000000000001","startTime":259199999,"status":"ACTIVE","zonalShiftId":"00000000-0000-0000-0000-000000000001"}
slot 3 token 4 200 {"awayFrom":"az1","comment":"","expiryTime":260999999,"practiceRunOutcome":"INTERRUPTED","resourceIdentifier":"arn:arc:resource/0000000000000001","startTime":259199999,"status":"CANCELED","zonalShiftId":"00000000-0000-0000-0000-000000000001"}
slot 4 token 5 409 {"Cause":"BlockedDate","Reason":"Blocked","__type":"ConflictException"}
slot 5 token 6 409 {"Cause":"BlockedDate","Reason":"Blocked","__type":"ConflictException"}
slot 6 token 7 200 {"awayFrom":"az1","comment":"","expiryTime":347400000,"practiceRunOutcome":"PENDING","resourceIdentifier":"arn:arc:resource/0000000000000001","startTime":345600000,"status":"ACTIVE","zonalShiftId":"00000000-0000-0000-0000-000000000002"}

== each of several dates blocks
call 0 0 0 RegisterManagedResource {"name":"lb","availabilityZones":["az1","az2"]}
call 0 0 0 CreatePracticeRunConfiguration {"resourceIdentifier":"arn:arc:resource/0000000000000001","blockedDates":["1970-01-03","1970-01-01"],"outcomeAlarms":[{"alarmIdentifier":"errors"}]}
call 0 0 0 StartPracticeRun {"resourceIdentifier":"arn:arc:resource/0000000000000001","awayFrom":"az1","comment":""}
call 0 86400000 0 StartPracticeRun {"resourceIdentifier":"arn:arc:resource/0000000000000001","awayFrom":"az1","comment":""}
call 0 86400000 0 CancelPracticeRun {"zonalShiftId":"00000000-0000-0000-0000-000000000001"}
call 0 172800000 0 StartPracticeRun {"resourceIdentifier":"arn:arc:resource/0000000000000001","awayFrom":"az1","comment":""}
call 0 259200000 0 StartPracticeRun {"resourceIdentifier":"arn:arc:resource/0000000000000001","awayFrom":"az1","comment":""}
----
slot 0 token 1 200 {"resourceIdentifier":"arn:arc:resource/0000000000000001"}
slot 1 token 2 200 {}
slot 2 token 3 409 {"Cause":"BlockedDate","Reason":"Blocked","__type":"ConflictException"}
slot 3 token 4 200 {"awayFrom":"az1","comment":"","expiryTime":88200000,"practiceRunOutcome":"PENDING","resourceIdentifier":"arn:arc:resource/0000000000000001","startTime":86400000,"status":"ACTIVE","zonalShiftId":"00000000-0000-0000-0000-000000000001"}
slot 4 token 5 200 {"awayFrom":"az1","comment":"","expiryTime":88200000,"practiceRunOutcome":"INTERRUPTED","resourceIdentifier":"arn:arc:resource/0000000000000001","startTime":86400000,"status":"CANCELED","zonalShiftId":"00000000-0000-0000-0000-000000000001"}
slot 5 token 6 409 {"Cause":"BlockedDate","Reason":"Blocked","__type":"ConflictException"}
slot 6 token 7 200 {"awayFrom":"az1","comment":"","expiryTime":261000000,"practiceRunOutcome":"PENDING","resourceIdentifier":"arn:arc:resource/0000000000000001","startTime":259200000,"status":"ACTIVE","zonalShiftId":"00000000-0000-0000-0000-000000000002"}

== the calendar begins on a Thursday
call 0 0 0 RegisterManagedResource {"name":"lb","availabilityZones":["az1","az2"]}
call 0 0 0 CreatePracticeRunConfiguration {"resourceIdentifier":"arn:arc:resource/0000000000000001","blockedWindows":["Thu:00:00-Thu:00:01"],"outcomeAlarms":[{"alarmIdentifier":"errors"}]}
call 0 0 0 StartPracticeRun {"resourceIdentifier":"arn:arc:resource/0000000000000001","awayFrom":"az1","comment":""}
call 0 59999 0 StartPracticeRun {"resourceIdentifier":"arn:arc:resource/0000000000000001","awayFrom":"az1","comment":""}
call 0 60000 0 StartPracticeRun {"resourceIdentifier":"arn:arc:resource/0000000000000001","awayFrom":"az1","comment":""}
----
slot 0 token 1 200 {"resourceIdentifier":"arn:arc:resource/0000000000000001"}
slot 1 token 2 200 {}
slot 2 token 3 409 {"Cause":"BlockedWindow","Reason":"Blocked","__type":"ConflictException"}
slot 3 token 4 409 {"Cause":"BlockedWindow","Reason":"Blocked","__type":"ConflictException"}
slot 4 token 5 200 {"awayFrom":"az1","comment":"","expiryTime":1860000,"practiceRunOutcome":"PENDING","resourceIdentifier":"arn:arc:resource/0000000000000001","startTime":60000,"status":"ACTIVE","zonalShiftId":"00000000-0000-0000-0000-000000000001"}

== a date blocks the first day of all
call 0 0 0 RegisterManagedResource {"name":"lb","availabilityZones":["az1","az2"]}
call 0 0 0 CreatePracticeRunConfiguration {"resourceIdentifier":"arn:arc:resource/0000000000000001","blockedDates":["1970-01-01"],"outcomeAlarms":[{"alarmIdentifier":"errors"}]}
call 0 0 0 StartPracticeRun {"resourceIdentifier":"arn:arc:resource/0000000000000001","awayFrom":"az1","comment":""}
call 0 86399999 0 StartPracticeRun {"resourceIdentifier":"arn:arc:resource/0000000000000001","awayFrom":"az1","comment":""}
call 0 86400000 0 StartPracticeRun {"resourceIdentifier":"arn:arc:resource/0000000000000001","awayFrom":"az1","comment":""}
----
slot 0 token 1 200 {"resourceIdentifier":"arn:arc:resource/0000000000000001"}
slot 1 token 2 200 {}
slot 2 token 3 409 {"Cause":"BlockedDate","Reason":"Blocked","__type":"ConflictException"}
slot 3 token 4 409 {"Cause":"BlockedDate","Reason":"Blocked","__type":"ConflictException"}
slot 4 token 5 200 {"awayFrom":"az1","comment":"","expiryTime":88200000,"practiceRunOutcome":"PENDING","resourceIdentifier":"arn:arc:resource/0000000000000001","startTime":86400000,"status":"ACTIVE","zonalShiftId":"00000000-0000-0000-0000-000000000001"}

== 28 February is followed by March in a common year
call 0 0 0 RegisterManagedResource {"name":"lb","availabilityZones":["az1","az2"]}
call 0 0 0 CreatePracticeRunConfiguration {"resourceIdentifier":"arn:arc:resource/0000000000000001","blockedDates":["1970-03-01"],"outcomeAlarms":[{"alarmIdentifier":"errors"}]}
call 0 5097599999 0 StartPracticeRun {"resourceIdentifier":"arn:arc:resource/0000000000000001","awayFrom":"az1","comment":""}
call 0 5097599999 0 CancelPracticeRun {"zonalShiftId":"00000000-0000-0000-0000-000000000001"}
call 0 5097600000 0 StartPracticeRun {"resourceIdentifier":"arn:arc:resource/0000000000000001","awayFrom":"az1","comment":""}
call 0 5183999999 0 StartPracticeRun {"resourceIdentifier":"arn:arc:resource/0000000000000001","awayFrom":"az1","comment":""}
call 0 5184000000 0 StartPracticeRun {"resourceIdentifier":"arn:arc:resource/0000000000000001","awayFrom":"az1","comment":""}
----
slot 0 token 1 200 {"resourceIdentifier":"arn:arc:resource/0000000000000001"}
slot 1 token 2 200 {}
slot 2 token 3 200 {"awayFrom":"az1","comment":"","expiryTime":5099399999,"practiceRunOutcome":"PENDING","resourceIdentifier":"arn:arc:resource/0000000000000001","startTime":5097599999,"status":"ACTIVE","zonalShiftId":"00000000-0000-0000-0000-000000000001"}
slot 3 token 4 200 {"awayFrom":"az1","comment":"","expiryTime":5099399999,"practiceRunOutcome":"INTERRUPTED","resourceIdentifier":"arn:arc:resource/0000000000000001","startTime":5097599999,"status":"CANCELED","zonalShiftId":"00000000-0000-0000-0000-000000000001"}
slot 4 token 5 409 {"Cause":"BlockedDate","Reason":"Blocked","__type":"ConflictException"}
slot 5 token 6 409 {"Cause":"BlockedDate","Reason":"Blocked","__type":"ConflictException"}
slot 6 token 7 200 {"awayFrom":"az1","comment":"","expiryTime":5185800000,"practiceRunOutcome":"PENDING","resourceIdentifier":"arn:arc:resource/0000000000000001","startTime":5184000000,"status":"ACTIVE","zonalShiftId":"00000000-0000-0000-0000-000000000002"}

== 29 February is a date in a leap year
call 0 0 0 RegisterManagedResource {"name":"lb","availabilityZones":["az1","az2"]}
call 0 0 0 CreatePracticeRunConfiguration {"resourceIdentifier":"arn:arc:resource/0000000000000001","blockedDates":["1972-02-29"],"outcomeAlarms":[{"alarmIdentifier":"errors"}]}
call 0 68169599999 0 StartPracticeRun {"resourceIdentifier":"arn:arc:resource/0000000000000001","awayFrom":"az1","comment":""}
call 0 68169599999 0 CancelPracticeRun {"zonalShiftId":"00000000-0000-0000-0000-000000000001"}
call 0 68169600000 0 StartPracticeRun {"resourceIdentifier":"arn:arc:resource/0000000000000001","awayFrom":"az1","comment":""}
call 0 68255999999 0 StartPracticeRun {"resourceIdentifier":"arn:arc:resource/0000000000000001","awayFrom":"az1","comment":""}
call 0 68256000000 0 StartPracticeRun {"resourceIdentifier":"arn:arc:resource/0000000000000001","awayFrom":"az1","comment":""}
----
slot 0 token 1 200 {"resourceIdentifier":"arn:arc:resource/0000000000000001"}
slot 1 token 2 200 {}
slot 2 token 3 200 {"awayFrom":"az1","comment":"","expiryTime":68171399999,"practiceRunOutcome":"PENDING","resourceIdentifier":"arn:arc:resource/0000000000000001","startTime":68169599999,"status":"ACTIVE","zonalShiftId":"00000000-0000-0000-0000-000000000001"}
slot 3 token 4 200 {"awayFrom":"az1","comment":"","expiryTime":68171399999,"practiceRunOutcome":"INTERRUPTED","resourceIdentifier":"arn:arc:resource/0000000000000001","startTime":68169599999,"status":"CANCELED","zonalShiftId":"00000000-0000-0000-0000-000000000001"}
slot 4 token 5 409 {"Cause":"BlockedDate","Reason":"Blocked","__type":"ConflictException"}
slot 5 token 6 409 {"Cause":"BlockedDate","Reason":"Blocked","__type":"ConflictException"}
slot 6 token 7 200 {"awayFrom":"az1","comment":"","expiryTime":68257800000,"practiceRunOutcome":"PENDING","resourceIdentifier":"arn:arc:resource/0000000000000001","startTime":68256000000,"status":"ACTIVE","zonalShiftId":"00000000-0000-0000-0000-000000000002"}

== 2000 is a leap year
call 0 0 0 RegisterManagedResource {"name":"lb","availabilityZones":["az1","az2"]}
call 0 0 0 CreatePracticeRunConfiguration {"resourceIdentifier":"arn:arc:resource/0000000000000001","blockedDates":["2000-02-29"],"outcomeAlarms":[{"alarmIdentifier":"errors"}]}
call 0 951782399999 0 StartPracticeRun {"resourceIdentifier":"arn:arc:resource/0000000000000001","awayFrom":"az1","comment":""}
call 0 951782399999 0 CancelPracticeRun {"zonalShiftId":"00000000-0000-0000-0000-000000000001"}
call 0 951782400000 0 StartPracticeRun {"resourceIdentifier":"arn:arc:resource/0000000000000001","awayFrom":"az1","comment":""}
call 0 951868799999 0 StartPracticeRun {"resourceIdentifier":"arn:arc:resource/0000000000000001","awayFrom":"az1","comment":""}
call 0 951868800000 0 StartPracticeRun {"resourceIdentifier":"arn:arc:resource/0000000000000001","awayFrom":"az1","comment":""}
----
slot 0 token 1 200 {"resourceIdentifier":"arn:arc:resource/0000000000000001"}
slot 1 token 2 200 {}
slot 2 token 3 200 {"awayFrom":"az1","comment":"","expiryTime":951784199999,"practiceRunOutcome":"PENDING","resourceIdentifier":"arn:arc:resource/0000000000000001","startTime":951782399999,"status":"ACTIVE","zonalShiftId":"00000000-0000-0000-0000-000000000001"}
slot 3 token 4 200 {"awayFrom":"az1","comment":"","expiryTime":951784199999,"practiceRunOutcome":"INTERRUPTED","resourceIdentifier":"arn:arc:resource/0000000000000001","startTime":951782399999,"status":"CANCELED","zonalShiftId":"00000000-0000-0000-0000-000000000001"}
slot 4 token 5 409 {"Cause":"BlockedDate","Reason":"Blocked","__type":"ConflictException"}
slot 5 token 6 409 {"Cause":"BlockedDate","Reason":"Blocked","__type":"ConflictException"}
slot 6 token 7 200 {"awayFrom":"az1","comment":"","expiryTime":951870600000,"practiceRunOutcome":"PENDING","resourceIdentifier":"arn:arc:resource/0000000000000001","startTime":951868800000,"status":"ACTIVE","zonalShiftId":"00000000-0000-0000-0000-000000000002"}

== 2024 is a leap year
call 0 0 0 RegisterManagedResource {"name":"lb","availabilityZones":["az1","az2"]}
call 0 0 0 CreatePracticeRunConfiguration {"resourceIdentifier":"arn:arc:resource/0000000000000001","blockedDates":["2024-02-29"],"outcomeAlarms":[{"alarmIdentifier":"errors"}]}
call 0 1709164799999 0 StartPracticeRun {"resourceIdentifier":"arn:arc:resource/0000000000000001","awayFrom":"az1","comment":""}
call 0 1709164799999 0 CancelPracticeRun {"zonalShiftId":"00000000-0000-0000-0000-000000000001"}
call 0 1709164800000 0 StartPracticeRun {"resourceIdentifier":"arn:arc:resource/0000000000000001","awayFrom":"az1","comment":""}
call 0 1709251199999 0 StartPracticeRun {"resourceIdentifier":"arn:arc:resource/0000000000000001","awayFrom":"az1","comment":""}
call 0 1709251200000 0 StartPracticeRun {"resourceIdentifier":"arn:arc:resource/0000000000000001","awayFrom":"az1","comment":""}
----
slot 0 token 1 200 {"resourceIdentifier":"arn:arc:resource/0000000000000001"}
slot 1 token 2 200 {}
slot 2 token 3 200 {"awayFrom":"az1","comment":"","expiryTime":1709166599999,"practiceRunOutcome":"PENDING","resourceIdentifier":"arn:arc:resource/0000000000000001","startTime":1709164799999,"status":"ACTIVE","zonalShiftId":"00000000-0000-0000-0000-000000000001"}
slot 3 token 4 200 {"awayFrom":"az1","comment":"","expiryTime":1709166599999,"practiceRunOutcome":"INTERRUPTED","resourceIdentifier":"arn:arc:resource/0000000000000001","startTime":1709164799999,"status":"CANCELED","zonalShiftId":"00000000-0000-0000-0000-000000000001"}
slot 4 token 5 409 {"Cause":"BlockedDate","Reason":"Blocked","__type":"ConflictException"}
slot 5 token 6 409 {"Cause":"BlockedDate","Reason":"Blocked","__type":"ConflictException"}
slot 6 token 7 200 {"awayFrom":"az1","comment":"","expiryTime":1709253000000,"practiceRunOutcome":"PENDING","resourceIdentifier":"arn:arc:resource/0000000000000001","startTime":1709251200000,"status":"ACTIVE","zonalShiftId":"00000000-0000-0000-0000-000000000002"}

== 2100 is a common year
call 0 0 0 RegisterManagedResource {"name":"lb","availabilityZones":["az1","az2"]}
call 0 0 0 CreatePracticeRunConfiguration {"resourceIdentifier":"arn:arc:resource/0000000000000001","blockedDates":["2100-03-01"],"outcomeAlarms":[{"alarmIdentifier":"errors"}]}
call 0 4107542399999 0 StartPracticeRun {"resourceIdentifier":"arn:arc:resource/0000000000000001","awayFrom":"az1","comment":""}
call 0 4107542399999 0 CancelPracticeRun {"zonalShiftId":"00000000-0000-0000-0000-000000000001"}
call 0 4107542400000 0 StartPracticeRun {"resourceIdentifier":"arn:arc:resource/0000000000000001","awayFrom":"az1","comment":""}
call 0 4107628799999 0 StartPracticeRun {"resourceIdentifier":"arn:arc:resource/0000000000000001","awayFrom":"az1","comment":""}
call 0 4107628800000 0 StartPracticeRun {"resourceIdentifier":"arn:arc:resource/0000000000000001","awayFrom":"az1","comment":""}
----
slot 0 token 1 200 {"resourceIdentifier":"arn:arc:resource/0000000000000001"}
slot 1 token 2 200 {}
slot 2 token 3 200 {"awayFrom":"az1","comment":"","expiryTime":4107544199999,"practiceRunOutcome":"PENDING","resourceIdentifier":"arn:arc:resource/0000000000000001","startTime":4107542399999,"status":"ACTIVE","zonalShiftId":"00000000-0000-0000-0000-000000000001"}
slot 3 token 4 200 {"awayFrom":"az1","comment":"","expiryTime":4107544199999,"practiceRunOutcome":"INTERRUPTED","resourceIdentifier":"arn:arc:resource/0000000000000001","startTime":4107542399999,"status":"CANCELED","zonalShiftId":"00000000-0000-0000-0000-000000000001"}
slot 4 token 5 409 {"Cause":"BlockedDate","Reason":"Blocked","__type":"ConflictException"}
slot 5 token 6 409 {"Cause":"BlockedDate","Reason":"Blocked","__type":"ConflictException"}
slot 6 token 7 200 {"awayFrom":"az1","comment":"","expiryTime":4107630600000,"practiceRunOutcome":"PENDING","resourceIdentifier":"arn:arc:resource/0000000000000001","startTime":4107628800000,"status":"ACTIVE","zonalShiftId":"00000000-0000-0000-0000-000000000002"}

== the last day of the calendar ends with the last moment
call 0 0 0 RegisterManagedResource {"name":"lb","availabilityZones":["az1","az2"]}
call 0 0 0 CreatePracticeRunConfiguration {"resourceIdentifier":"arn:arc:resource/0000000000000001","blockedDates":["9999-12-31"],"outcomeAlarms":[{"alarmIdentifier":"errors"}]}
call 0 253402214399999 0 StartPracticeRun {"resourceIdentifier":"arn:arc:resource/0000000000000001","awayFrom":"az1","comment":""}
call 0 253402214399999 0 CancelPracticeRun {"zonalShiftId":"00000000-0000-0000-0000-000000000001"}
call 0 253402214400000 0 StartPracticeRun {"resourceIdentifier":"arn:arc:resource/0000000000000001","awayFrom":"az1","comment":""}
call 0 253402300799999 0 StartPracticeRun {"resourceIdentifier":"arn:arc:resource/0000000000000001","awayFrom":"az1","comment":""}
----
slot 0 token 1 200 {"resourceIdentifier":"arn:arc:resource/0000000000000001"}
slot 1 token 2 200 {}
slot 2 token 3 200 {"awayFrom":"az1","comment":"","expiryTime":253402216199999,"practiceRunOutcome":"PENDING","resourceIdentifier":"arn:arc:resource/0000000000000001","startTime":253402214399999,"status":"ACTIVE","zonalShiftId":"00000000-0000-0000-0000-000000000001"}
slot 3 token 4 200 {"awayFrom":"az1","comment":"","expiryTime":253402216199999,"practiceRunOutcome":"INTERRUPTED","resourceIdentifier":"arn:arc:resource/0000000000000001","startTime":253402214399999,"status":"CANCELED","zonalShiftId":"00000000-0000-0000-0000-000000000001"}
slot 4 token 5 409 {"Cause":"BlockedDate","Reason":"Blocked","__type":"ConflictException"}
slot 5 token 6 409 {"Cause":"BlockedDate","Reason":"Blocked","__type":"ConflictException"}

== the day before doesn't block the last one
call 0 0 0 RegisterManagedResource {"name":"lb","availabilityZones":["az1","az2"]}
call 0 0 0 CreatePracticeRunConfiguration {"resourceIdentifier":"arn:arc:resource/0000000000000001","blockedDates":["9999-12-30"],"outcomeAlarms":[{"alarmIdentifier":"errors"}]}
call 0 253402214399999 0 StartPracticeRun {"resourceIdentifier":"arn:arc:resource/0000000000000001","awayFrom":"az1","comment":""}
call 0 253402300799999 0 StartPracticeRun {"resourceIdentifier":"arn:arc:resource/0000000000000001","awayFrom":"az1","comment":""}
----
slot 0 token 1 200 {"resourceIdentifier":"arn:arc:resource/0000000000000001"}
slot 1 token 2 200 {}
slot 2 token 3 409 {"Cause":"BlockedDate","Reason":"Blocked","__type":"ConflictException"}
slot 3 token 4 200 {"awayFrom":"az1","comment":"","expiryTime":253402302599999,"practiceRunOutcome":"PENDING","resourceIdentifier":"arn:arc:resource/0000000000000001","startTime":253402300799999,"status":"ACTIVE","zonalShiftId":"00000000-0000-0000-0000-000000000001"}

== the last day of the calendar is a Friday
call 0 0 0 RegisterManagedResource {"name":"lb","availabilityZones":["az1","az2"]}
call 0 0 0 CreatePracticeRunConfiguration {"resourceIdentifier":"arn:arc:resource/0000000000000001","blockedWindows":["Fri:23:59-Sat:00:00"],"outcomeAlarms":[{"alarmIdentifier":"errors"}]}
call 0 253402300739999 0 StartPracticeRun {"resourceIdentifier":"arn:arc:resource/0000000000000001","awayFrom":"az1","comment":""}
call 0 253402300739999 0 CancelPracticeRun {"zonalShiftId":"00000000-0000-0000-0000-000000000001"}
call 0 253402300740000 0 StartPracticeRun {"resourceIdentifier":"arn:arc:resource/0000000000000001","awayFrom":"az1","comment":""}
call 0 253402300799999 0 StartPracticeRun {"resourceIdentifier":"arn:arc:resource/0000000000000001","awayFrom":"az1","comment":""}
----
slot 0 token 1 200 {"resourceIdentifier":"arn:arc:resource/0000000000000001"}
slot 1 token 2 200 {}
slot 2 token 3 200 {"awayFrom":"az1","comment":"","expiryTime":253402302539999,"practiceRunOutcome":"PENDING","resourceIdentifier":"arn:arc:resource/0000000000000001","startTime":253402300739999,"status":"ACTIVE","zonalShiftId":"00000000-0000-0000-0000-000000000001"}
slot 3 token 4 200 {"awayFrom":"az1","comment":"","expiryTime":253402302539999,"practiceRunOutcome":"INTERRUPTED","resourceIdentifier":"arn:arc:resource/0000000000000001","startTime":253402300739999,"status":"CANCELED","zonalShiftId":"00000000-0000-0000-0000-000000000001"}
slot 4 token 5 409 {"Cause":"BlockedWindow","Reason":"Blocked","__type":"ConflictException"}
slot 5 token 6 409 {"Cause":"BlockedWindow","Reason":"Blocked","__type":"ConflictException"}

== 29 February is no date in a common year
call 0 0 0 CreatePracticeRunConfiguration {"resourceIdentifier":"arn:arc:resource/0000000000000001","blockedDates":["2023-02-29"],"outcomeAlarms":[{"alarmIdentifier":"errors"}]}
---- status 6
script line 1: BadDate

== 2100 has no 29 February
call 0 0 0 CreatePracticeRunConfiguration {"resourceIdentifier":"arn:arc:resource/0000000000000001","blockedDates":["2100-02-29"],"outcomeAlarms":[{"alarmIdentifier":"errors"}]}
---- status 6
script line 1: BadDate

== a month has no day 0
call 0 0 0 CreatePracticeRunConfiguration {"resourceIdentifier":"arn:arc:resource/0000000000000001","blockedDates":["1970-01-00"],"outcomeAlarms":[{"alarmIdentifier":"errors"}]}
---- status 6
script line 1: BadDate

== April has 30 days
call 0 0 0 CreatePracticeRunConfiguration {"resourceIdentifier":"arn:arc:resource/0000000000000001","blockedDates":["1970-04-31"],"outcomeAlarms":[{"alarmIdentifier":"errors"}]}
---- status 6
script line 1: BadDate

== a year has no month 13
call 0 0 0 CreatePracticeRunConfiguration {"resourceIdentifier":"arn:arc:resource/0000000000000001","blockedDates":["1970-13-01"],"outcomeAlarms":[{"alarmIdentifier":"errors"}]}
---- status 6
script line 1: BadDate

== a year has no month 0
call 0 0 0 CreatePracticeRunConfiguration {"resourceIdentifier":"arn:arc:resource/0000000000000001","blockedDates":["1970-00-01"],"outcomeAlarms":[{"alarmIdentifier":"errors"}]}
---- status 6
script line 1: BadDate

== no date is before 1970
call 0 0 0 CreatePracticeRunConfiguration {"resourceIdentifier":"arn:arc:resource/0000000000000001","blockedDates":["1969-12-31"],"outcomeAlarms":[{"alarmIdentifier":"errors"}]}
---- status 6
script line 1: BadDate

== a year has four digits
call 0 0 0 CreatePracticeRunConfiguration {"resourceIdentifier":"arn:arc:resource/0000000000000001","blockedDates":["10000-01-01"],"outcomeAlarms":[{"alarmIdentifier":"errors"}]}
---- status 6
script line 1: BadDate

== a month has two digits
call 0 0 0 CreatePracticeRunConfiguration {"resourceIdentifier":"arn:arc:resource/0000000000000001","blockedDates":["1970-1-01"],"outcomeAlarms":[{"alarmIdentifier":"errors"}]}
---- status 6
script line 1: BadDate

== a day has two digits
call 0 0 0 CreatePracticeRunConfiguration {"resourceIdentifier":"arn:arc:resource/0000000000000001","blockedDates":["1970-01-1"],"outcomeAlarms":[{"alarmIdentifier":"errors"}]}
---- status 6
script line 1: BadDate

== a date has no time
call 0 0 0 CreatePracticeRunConfiguration {"resourceIdentifier":"arn:arc:resource/0000000000000001","blockedDates":["1970-01-01T00:00"],"outcomeAlarms":[{"alarmIdentifier":"errors"}]}
---- status 6
script line 1: BadDate

== a date has hyphens
call 0 0 0 CreatePracticeRunConfiguration {"resourceIdentifier":"arn:arc:resource/0000000000000001","blockedDates":["19700101"],"outcomeAlarms":[{"alarmIdentifier":"errors"}]}
---- status 6
script line 1: BadDate

== an empty date is none
call 0 0 0 CreatePracticeRunConfiguration {"resourceIdentifier":"arn:arc:resource/0000000000000001","blockedDates":[""],"outcomeAlarms":[{"alarmIdentifier":"errors"}]}
---- status 6
script line 1: BadDate

== a window begins with its first minute and ends before its last one
call 0 0 0 RegisterManagedResource {"name":"lb","availabilityZones":["az1","az2"]}
call 0 0 0 CreatePracticeRunConfiguration {"resourceIdentifier":"arn:arc:resource/0000000000000001","blockedWindows":["Mon:09:00-Mon:09:20"],"outcomeAlarms":[{"alarmIdentifier":"errors"}]}
call 0 377999999 0 StartPracticeRun {"resourceIdentifier":"arn:arc:resource/0000000000000001","awayFrom":"az1","comment":""}
call 0 377999999 0 CancelPracticeRun {"zonalShiftId":"00000000-0000-0000-0000-000000000001"}
call 0 378000000 0 StartPracticeRun {"resourceIdentifier":"arn:arc:resource/0000000000000001","awayFrom":"az1","comment":""}
call 0 379199999 0 StartPracticeRun {"resourceIdentifier":"arn:arc:resource/0000000000000001","awayFrom":"az1","comment":""}
call 0 379200000 0 StartPracticeRun {"resourceIdentifier":"arn:arc:resource/0000000000000001","awayFrom":"az1","comment":""}
----
slot 0 token 1 200 {"resourceIdentifier":"arn:arc:resource/0000000000000001"}
slot 1 token 2 200 {}
slot 2 token 3 200 {"awayFrom":"az1","comment":"","expiryTime":379799999,"practiceRunOutcome":"PENDING","resourceIdentifier":"arn:arc:resource/0000000000000001","startTime":377999999,"status":"ACTIVE","zonalShiftId":"00000000-0000-0000-0000-000000000001"}
slot 3 token 4 200 {"awayFrom":"az1","comment":"","expiryTime":379799999,"practiceRunOutcome":"INTERRUPTED","resourceIdentifier":"arn:arc:resource/0000000000000001","startTime":377999999,"status":"CANCELED","zonalShiftId":"00000000-0000-0000-0000-000000000001"}
slot 4 token 5 409 {"Cause":"BlockedWindow","Reason":"Blocked","__type":"ConflictException"}
slot 5 token 6 409 {"Cause":"BlockedWindow","Reason":"Blocked","__type":"ConflictException"}
slot 6 token 7 200 {"awayFrom":"az1","comment":"","expiryTime":381000000,"practiceRunOutcome":"PENDING","resourceIdentifier":"arn:arc:resource/0000000000000001","startTime":379200000,"status":"ACTIVE","zonalShiftId":"00000000-0000-0000-0000-000000000002"}

== a window goes across midnight
call 0 0 0 RegisterManagedResource {"name":"lb","availabilityZones":["az1","az2"]}
call 0 0 0 CreatePracticeRunConfiguration {"resourceIdentifier":"arn:arc:resource/0000000000000001","blockedWindows":["Mon:23:30-Tue:00:30"],"outcomeAlarms":[{"alarmIdentifier":"errors"}]}
call 0 430199999 0 StartPracticeRun {"resourceIdentifier":"arn:arc:resource/0000000000000001","awayFrom":"az1","comment":""}
call 0 430199999 0 CancelPracticeRun {"zonalShiftId":"00000000-0000-0000-0000-000000000001"}
call 0 430200000 0 StartPracticeRun {"resourceIdentifier":"arn:arc:resource/0000000000000001","awayFrom":"az1","comment":""}
call 0 431999999 0 StartPracticeRun {"resourceIdentifier":"arn:arc:resource/0000000000000001","awayFrom":"az1","comment":""}
call 0 432000000 0 StartPracticeRun {"resourceIdentifier":"arn:arc:resource/0000000000000001","awayFrom":"az1","comment":""}
call 0 433799999 0 StartPracticeRun {"resourceIdentifier":"arn:arc:resource/0000000000000001","awayFrom":"az1","comment":""}
call 0 433800000 0 StartPracticeRun {"resourceIdentifier":"arn:arc:resource/0000000000000001","awayFrom":"az1","comment":""}
----
slot 0 token 1 200 {"resourceIdentifier":"arn:arc:resource/0000000000000001"}
slot 1 token 2 200 {}
slot 2 token 3 200 {"awayFrom":"az1","comment":"","expiryTime":431999999,"practiceRunOutcome":"PENDING","resourceIdentifier":"arn:arc:resource/0000000000000001","startTime":430199999,"status":"ACTIVE","zonalShiftId":"00000000-0000-0000-0000-000000000001"}
slot 3 token 4 200 {"awayFrom":"az1","comment":"","expiryTime":431999999,"practiceRunOutcome":"INTERRUPTED","resourceIdentifier":"arn:arc:resource/0000000000000001","startTime":430199999,"status":"CANCELED","zonalShiftId":"00000000-0000-0000-0000-000000000001"}
slot 4 token 5 409 {"Cause":"BlockedWindow","Reason":"Blocked","__type":"ConflictException"}
slot 5 token 6 409 {"Cause":"BlockedWindow","Reason":"Blocked","__type":"ConflictException"}
slot 6 token 7 409 {"Cause":"BlockedWindow","Reason":"Blocked","__type":"ConflictException"}
slot 7 token 8 409 {"Cause":"BlockedWindow","Reason":"Blocked","__type":"ConflictException"}
slot 8 token 9 200 {"awayFrom":"az1","comment":"","expiryTime":435600000,"practiceRunOutcome":"PENDING","resourceIdentifier":"arn:arc:resource/0000000000000001","startTime":433800000,"status":"ACTIVE","zonalShiftId":"00000000-0000-0000-0000-000000000002"}

== a window goes across the week's end
call 0 0 0 RegisterManagedResource {"name":"lb","availabilityZones":["az1","az2"]}
call 0 0 0 CreatePracticeRunConfiguration {"resourceIdentifier":"arn:arc:resource/0000000000000001","blockedWindows":["Sun:23:30-Mon:00:30"],"outcomeAlarms":[{"alarmIdentifier":"errors"}]}
call 0 343799999 0 StartPracticeRun {"resourceIdentifier":"arn:arc:resource/0000000000000001","awayFrom":"az1","comment":""}
call 0 343799999 0 CancelPracticeRun {"zonalShiftId":"00000000-0000-0000-0000-000000000001"}
call 0 343800000 0 StartPracticeRun {"resourceIdentifier":"arn:arc:resource/0000000000000001","awayFrom":"az1","comment":""}
call 0 345599999 0 StartPracticeRun {"resourceIdentifier":"arn:arc:resource/0000000000000001","awayFrom":"az1","comment":""}
call 0 345600000 0 StartPracticeRun {"resourceIdentifier":"arn:arc:resource/0000000000000001","awayFrom":"az1","comment":""}
call 0 347399999 0 StartPracticeRun {"resourceIdentifier":"arn:arc:resource/0000000000000001","awayFrom":"az1","comment":""}
call 0 347400000 0 StartPracticeRun {"resourceIdentifier":"arn:arc:resource/0000000000000001","awayFrom":"az1","comment":""}
----
slot 0 token 1 200 {"resourceIdentifier":"arn:arc:resource/0000000000000001"}
slot 1 token 2 200 {}
slot 2 token 3 200 {"awayFrom":"az1","comment":"","expiryTime":345599999,"practiceRunOutcome":"PENDING","resourceIdentifier":"arn:arc:resource/0000000000000001","startTime":343799999,"status":"ACTIVE","zonalShiftId":"00000000-0000-0000-0000-000000000001"}
slot 3 token 4 200 {"awayFrom":"az1","comment":"","expiryTime":345599999,"practiceRunOutcome":"INTERRUPTED","resourceIdentifier":"arn:arc:resource/0000000000000001","startTime":343799999,"status":"CANCELED","zonalShiftId":"00000000-0000-0000-0000-000000000001"}
slot 4 token 5 409 {"Cause":"BlockedWindow","Reason":"Blocked","__type":"ConflictException"}
slot 5 token 6 409 {"Cause":"BlockedWindow","Reason":"Blocked","__type":"ConflictException"}
slot 6 token 7 409 {"Cause":"BlockedWindow","Reason":"Blocked","__type":"ConflictException"}
slot 7 token 8 409 {"Cause":"BlockedWindow","Reason":"Blocked","__type":"ConflictException"}
slot 8 token 9 200 {"awayFrom":"az1","comment":"","expiryTime":349200000,"practiceRunOutcome":"PENDING","resourceIdentifier":"arn:arc:resource/0000000000000001","startTime":347400000,"status":"ACTIVE","zonalShiftId":"00000000-0000-0000-0000-000000000002"}

== a window goes up to the week's end
call 0 0 0 RegisterManagedResource {"name":"lb","availabilityZones":["az1","az2"]}
call 0 0 0 CreatePracticeRunConfiguration {"resourceIdentifier":"arn:arc:resource/0000000000000001","blockedWindows":["Sun:23:30-Mon:00:00"],"outcomeAlarms":[{"alarmIdentifier":"errors"}]}
call 0 345599999 0 StartPracticeRun {"resourceIdentifier":"arn:arc:resource/0000000000000001","awayFrom":"az1","comment":""}
call 0 345600000 0 StartPracticeRun {"resourceIdentifier":"arn:arc:resource/0000000000000001","awayFrom":"az1","comment":""}
----
slot 0 token 1 200 {"resourceIdentifier":"arn:arc:resource/0000000000000001"}
slot 1 token 2 200 {}
slot 2 token 3 409 {"Cause":"BlockedWindow","Reason":"Blocked","__type":"ConflictException"}
slot 3 token 4 200 {"awayFrom":"az1","comment":"","expiryTime":347400000,"practiceRunOutcome":"PENDING","resourceIdentifier":"arn:arc:resource/0000000000000001","startTime":345600000,"status":"ACTIVE","zonalShiftId":"00000000-0000-0000-0000-000000000001"}

== a window goes from the week's first minute on
call 0 0 0 RegisterManagedResource {"name":"lb","availabilityZones":["az1","az2"]}
call 0 0 0 CreatePracticeRunConfiguration {"resourceIdentifier":"arn:arc:resource/0000000000000001","blockedWindows":["Mon:00:00-Mon:00:01"],"outcomeAlarms":[{"alarmIdentifier":"errors"}]}
call 0 345599999 0 StartPracticeRun {"resourceIdentifier":"arn:arc:resource/0000000000000001","awayFrom":"az1","comment":""}
call 0 345599999 0 CancelPracticeRun {"zonalShiftId":"00000000-0000-0000-0000-000000000001"}
call 0 345600000 0 StartPracticeRun {"resourceIdentifier":"arn:arc:resource/0000000000000001","awayFrom":"az1","comment":""}
call 0 345659999 0 StartPracticeRun {"resourceIdentifier":"arn:arc:resource/0000000000000001","awayFrom":"az1","comment":""}
call 0 345660000 0 StartPracticeRun {"resourceIdentifier":"arn:arc:resource/0000000000000001","awayFrom":"az1","comment":""}
----
slot 0 token 1 200 {"resourceIdentifier":"arn:arc:resource/0000000000000001"}
slot 1 token 2 200 {}
slot 2 token 3 200 {"awayFrom":"az1","comment":"","expiryTime":347399999,"practiceRunOutcome":"PENDING","resourceIdentifier":"arn:arc:resource/0000000000000001","startTime":345599999,"status":"ACTIVE","zonalShiftId":"00000000-0000-0000-0000-000000000001"}
slot 3 token 4 200 {"awayFrom":"az1","comment":"","expiryTime":347399999,"practiceRunOutcome":"INTERRUPTED","resourceIdentifier":"arn:arc:resource/0000000000000001","startTime":345599999,"status":"CANCELED","zonalShiftId":"00000000-0000-0000-0000-000000000001"}
slot 4 token 5 409 {"Cause":"BlockedWindow","Reason":"Blocked","__type":"ConflictException"}
slot 5 token 6 409 {"Cause":"BlockedWindow","Reason":"Blocked","__type":"ConflictException"}
slot 6 token 7 200 {"awayFrom":"az1","comment":"","expiryTime":347460000,"practiceRunOutcome":"PENDING","resourceIdentifier":"arn:arc:resource/0000000000000001","startTime":345660000,"status":"ACTIVE","zonalShiftId":"00000000-0000-0000-0000-000000000002"}

== a window goes over several days
call 0 0 0 RegisterManagedResource {"name":"lb","availabilityZones":["az1","az2"]}
call 0 0 0 CreatePracticeRunConfiguration {"resourceIdentifier":"arn:arc:resource/0000000000000001","blockedWindows":["Fri:18:00-Mon:06:00"],"outcomeAlarms":[{"alarmIdentifier":"errors"}]}
# Friday 18:00, Saturday and Sunday noon, Monday 05:59 and 06:00
call 0 151199999 0 StartPracticeRun {"resourceIdentifier":"arn:arc:resource/0000000000000001","awayFrom":"az1","comment":""}
call 0 151199999 0 CancelPracticeRun {"zonalShiftId":"00000000-0000-0000-0000-000000000001"}
call 0 151200000 0 StartPracticeRun {"resourceIdentifier":"arn:arc:resource/0000000000000001","awayFrom":"az1","comment":""}
call 0 216000000 0 StartPracticeRun {"resourceIdentifier":"arn:arc:resource/0000000000000001","awayFrom":"az1","comment":""}
call 0 302400000 0 StartPracticeRun {"resourceIdentifier":"arn:arc:resource/0000000000000001","awayFrom":"az1","comment":""}
call 0 367199999 0 StartPracticeRun {"resourceIdentifier":"arn:arc:resource/0000000000000001","awayFrom":"az1","comment":""}
call 0 367200000 0 StartPracticeRun {"resourceIdentifier":"arn:arc:resource/0000000000000001","awayFrom":"az1","comment":""}
----
slot 0 token 1 200 {"resourceIdentifier":"arn:arc:resource/0000000000000001"}
slot 1 token 2 200 {}
slot 2 token 3 200 {"awayFrom":"az1","comment":"","expiryTime":152999999,"practiceRunOutcome":"PENDING","resourceIdentifier":"arn:arc:resource/0000000000000001","startTime":151199999,"status":"ACTIVE","zonalShiftId":"00000000-0000-0000-0000-000000000001"}
slot 3 token 4 200 {"awayFrom":"az1","comment":"","expiryTime":152999999,"practiceRunOutcome":"INTERRUPTED","resourceIdentifier":"arn:arc:resource/0000000000000001","startTime":151199999,"status":"CANCELED","zonalShiftId":"00000000-0000-0000-0000-000000000001"}
slot 4 token 5 409 {"Cause":"BlockedWindow","Reason":"Blocked","__type":"ConflictException"}
slot 5 token 6 409 {"Cause":"BlockedWindow","Reason":"Blocked","__type":"ConflictException"}
slot 6 token 7 409 {"Cause":"BlockedWindow","Reason":"Blocked","__type":"ConflictException"}
slot 7 token 8 409 {"Cause":"BlockedWindow","Reason":"Blocked","__type":"ConflictException"}
slot 8 token 9 200 {"awayFrom":"az1","comment":"","expiryTime":369000000,"practiceRunOutcome":"PENDING","resourceIdentifier":"arn:arc:resource/0000000000000001","startTime":367200000,"status":"ACTIVE","zonalShiftId":"00000000-0000-0000-0000-000000000002"}

== a window leaves one minute of the week
call 0 0 0 RegisterManagedResource {"name":"lb","availabilityZones":["az1","az2"]}
call 0 0 0 CreatePracticeRunConfiguration {"resourceIdentifier":"arn:arc:resource/0000000000000001","blockedWindows":["Mon:00:01-Mon:00:00"],"outcomeAlarms":[{"alarmIdentifier":"errors"}]}
call 0 0 0 StartPracticeRun {"resourceIdentifier":"arn:arc:resource/0000000000000001","awayFrom":"az1","comment":""}
call 0 345599999 0 StartPracticeRun {"resourceIdentifier":"arn:arc:resource/0000000000000001","awayFrom":"az1","comment":""}
call 0 345600000 0 StartPracticeRun {"resourceIdentifier":"arn:arc:resource/0000000000000001","awayFrom":"az1","comment":""}
call 0 345600000 0 CancelPracticeRun {"zonalShiftId":"00000000-0000-0000-0000-000000000001"}
call 0 345659999 0 StartPracticeRun {"resourceIdentifier":"arn:arc:resource/0000000000000001","awayFrom":"az1","comment":""}
call 0 345659999 0 CancelPracticeRun {"zonalShiftId":"00000000-0000-0000-0000-000000000002"}
call 0 345660000 0 StartPracticeRun {"resourceIdentifier":"arn:arc:resource/0000000000000001","awayFrom":"az1","comment":""}
call 0 950399999 0 StartPracticeRun {"resourceIdentifier":"arn:arc:resource/0000000000000001","awayFrom":"az1","comment":""}
call 0 950400000 0 StartPracticeRun {"resourceIdentifier":"arn:arc:resource/0000000000000001","awayFrom":"az1","comment":""}
----
slot 0 token 1 200 {"resourceIdentifier":"arn:arc:resource/0000000000000001"}
slot 1 token 2 200 {}
slot 2 token 3 409 {"Cause":"BlockedWindow","Reason":"Blocked","__type":"ConflictException"}
slot 3 token 4 409 {"Cause":"BlockedWindow","Reason":"Blocked","__type":"ConflictException"}
slot 4 token 5 200 {"awayFrom":"az1","comment":"","expiryTime":347400000,"practiceRunOutcome":"PENDING","resourceIdentifier":"arn:arc:resource/0000000000000001","startTime":345600000,"status":"ACTIVE","zonalShiftId":"00000000-0000-0000-0000-000000000001"}
slot 5 token 6 200 {"awayFrom":"az1","comment":"","expiryTime":347400000,"practiceRunOutcome":"INTERRUPTED","resourceIdentifier":"arn:arc:resource/0000000000000001","startTime":345600000,"status":"CANCELED","zonalShiftId":"00000000-0000-0000-0000-000000000001"}
slot 6 token 7 200 {"awayFrom":"az1","comment":"","expiryTime":347459999,"practiceRunOutcome":"PENDING","resourceIdentifier":"arn:arc:resource/0000000000000001","startTime":345659999,"status":"ACTIVE","zonalShiftId":"00000000-0000-0000-0000-000000000002"}
slot 7 token 8 200 {"awayFrom":"az1","comment":"","expiryTime":347459999,"practiceRunOutcome":"INTERRUPTED","resourceIdentifier":"arn:arc:resource/0000000000000001","startTime":345659999,"status":"CANCELED","zonalShiftId":"00000000-0000-0000-0000-000000000002"}
slot 8 token 9 409 {"Cause":"BlockedWindow","Reason":"Blocked","__type":"ConflictException"}
slot 9 token 10 409 {"Cause":"BlockedWindow","Reason":"Blocked","__type":"ConflictException"}
slot 10 token 11 200 {"awayFrom":"az1","comment":"","expiryTime":952200000,"practiceRunOutcome":"PENDING","resourceIdentifier":"arn:arc:resource/0000000000000001","startTime":950400000,"status":"ACTIVE","zonalShiftId":"00000000-0000-0000-0000-000000000003"}

== a window that ends before it begins wraps round the week
call 0 0 0 RegisterManagedResource {"name":"lb","availabilityZones":["az1","az2"]}
call 0 0 0 CreatePracticeRunConfiguration {"resourceIdentifier":"arn:arc:resource/0000000000000001","blockedWindows":["Mon:10:00-Mon:09:00"],"outcomeAlarms":[{"alarmIdentifier":"errors"}]}
call 0 377999999 0 StartPracticeRun {"resourceIdentifier":"arn:arc:resource/0000000000000001","awayFrom":"az1","comment":""}
call 0 378000000 0 StartPracticeRun {"resourceIdentifier":"arn:arc:resource/0000000000000001","awayFrom":"az1","comment":""}
call 0 378000000 0 CancelPracticeRun {"zonalShiftId":"00000000-0000-0000-0000-000000000001"}
call 0 381599999 0 StartPracticeRun {"resourceIdentifier":"arn:arc:resource/0000000000000001","awayFrom":"az1","comment":""}
call 0 381599999 0 CancelPracticeRun {"zonalShiftId":"00000000-0000-0000-0000-000000000002"}
call 0 381600000 0 StartPracticeRun {"resourceIdentifier":"arn:arc:resource/0000000000000001","awayFrom":"az1","comment":""}
----
slot 0 token 1 200 {"resourceIdentifier":"arn:arc:resource/0000000000000001"}
slot 1 token 2 200 {}
slot 2 token 3 409 {"Cause":"BlockedWindow","Reason":"Blocked","__type":"ConflictException"}
slot 3 token 4 200 {"awayFrom":"az1","comment":"","expiryTime":379800000,"practiceRunOutcome":"PENDING","resourceIdentifier":"arn:arc:resource/0000000000000001","startTime":378000000,"status":"ACTIVE","zonalShiftId":"00000000-0000-0000-0000-000000000001"}
slot 4 token 5 200 {"awayFrom":"az1","comment":"","expiryTime":379800000,"practiceRunOutcome":"INTERRUPTED","resourceIdentifier":"arn:arc:resource/0000000000000001","startTime":378000000,"status":"CANCELED","zonalShiftId":"00000000-0000-0000-0000-000000000001"}
slot 5 token 6 200 {"awayFrom":"az1","comment":"","expiryTime":383399999,"practiceRunOutcome":"PENDING","resourceIdentifier":"arn:arc:resource/0000000000000001","startTime":381599999,"status":"ACTIVE","zonalShiftId":"00000000-0000-0000-0000-000000000002"}
slot 6 token 7 200 {"awayFrom":"az1","comment":"","expiryTime":383399999,"practiceRunOutcome":"INTERRUPTED","resourceIdentifier":"arn:arc:resource/0000000000000001","startTime":381599999,"status":"CANCELED","zonalShiftId":"00000000-0000-0000-0000-000000000002"}
slot 7 token 8 409 {"Cause":"BlockedWindow","Reason":"Blocked","__type":"ConflictException"}

== a window comes again each week
call 0 0 0 RegisterManagedResource {"name":"lb","availabilityZones":["az1","az2"]}
call 0 0 0 CreatePracticeRunConfiguration {"resourceIdentifier":"arn:arc:resource/0000000000000001","blockedWindows":["Thu:00:00-Thu:00:01"],"outcomeAlarms":[{"alarmIdentifier":"errors"}]}
call 0 0 0 StartPracticeRun {"resourceIdentifier":"arn:arc:resource/0000000000000001","awayFrom":"az1","comment":""}
call 0 60000 0 StartPracticeRun {"resourceIdentifier":"arn:arc:resource/0000000000000001","awayFrom":"az1","comment":""}
call 0 60000 0 CancelPracticeRun {"zonalShiftId":"00000000-0000-0000-0000-000000000001"}
call 0 604799999 0 StartPracticeRun {"resourceIdentifier":"arn:arc:resource/0000000000000001","awayFrom":"az1","comment":""}
call 0 604799999 0 CancelPracticeRun {"zonalShiftId":"00000000-0000-0000-0000-000000000002"}
call 0 604800000 0 StartPracticeRun {"resourceIdentifier":"arn:arc:resource/0000000000000001","awayFrom":"az1","comment":""}
call 0 604860000 0 StartPracticeRun {"resourceIdentifier":"arn:arc:resource/0000000000000001","awayFrom":"az1","comment":""}
call 0 604860000 0 CancelPracticeRun {"zonalShiftId":"00000000-0000-0000-0000-000000000003"}
call 0 60480000000 0 StartPracticeRun {"resourceIdentifier":"arn:arc:resource/0000000000000001","awayFrom":"az1","comment":""}
----
slot 0 token 1 200 {"resourceIdentifier":"arn:arc:resource/0000000000000001"}
slot 1 token 2 200 {}
slot 2 token 3 409 {"Cause":"BlockedWindow","Reason":"Blocked","__type":"ConflictException"}
slot 3 token 4 200 {"awayFrom":"az1","comment":"","expiryTime":1860000,"practiceRunOutcome":"PENDING","resourceIdentifier":"arn:arc:resource/0000000000000001","startTime":60000,"status":"ACTIVE","zonalShiftId":"00000000-0000-0000-0000-000000000001"}
slot 4 token 5 200 {"awayFrom":"az1","comment":"","expiryTime":1860000,"practiceRunOutcome":"INTERRUPTED","resourceIdentifier":"arn:arc:resource/0000000000000001","startTime":60000,"status":"CANCELED","zonalShiftId":"00000000-0000-0000-0000-000000000001"}
slot 5 token 6 200 {"awayFrom":"az1","comment":"","expiryTime":606599999,"practiceRunOutcome":"PENDING","resourceIdentifier":"arn:arc:resource/0000000000000001","startTime":604799999,"status":"ACTIVE","zonalShiftId":"00000000-0000-0000-0000-000000000002"}
slot 6 token 7 200 {"awayFrom":"az1","comment":"","expiryTime":606599999,"practiceRunOutcome":"INTERRUPTED","resourceIdentifier":"arn:arc:resource/0000000000000001","startTime":604799999,"status":"CANCELED","zonalShiftId":"00000000-0000-0000-0000-000000000002"}
slot 7 token 8 409 {"Cause":"BlockedWindow","Reason":"Blocked","__type":"ConflictException"}
slot 8 token 9 200 {"awayFrom":"az1","comment":"","expiryTime":606660000,"practiceRunOutcome":"PENDING","resourceIdentifier":"arn:arc:resource/0000000000000001","startTime":604860000,"status":"ACTIVE","zonalShiftId":"00000000-0000-0000-0000-000000000003"}
slot 9 token 10 200 {"awayFrom":"az1","comment":"","expiryTime":606660000,"practiceRunOutcome":"INTERRUPTED","resourceIdentifier":"arn:arc:resource/0000000000000001","startTime":604860000,"status":"CANCELED","zonalShiftId":"00000000-0000-0000-0000-000000000003"}
slot 10 token 11 409 {"Cause":"BlockedWindow","Reason":"Blocked","__type":"ConflictException"}

== a window knows the days of this century
call 0 0 0 RegisterManagedResource {"name":"lb","availabilityZones":["az1","az2"]}
call 0 0 0 CreatePracticeRunConfiguration {"resourceIdentifier":"arn:arc:resource/0000000000000001","blockedWindows":["Tue:12:00-Tue:13:00"],"outcomeAlarms":[{"alarmIdentifier":"errors"}]}
# 1 December 2026 is a Tuesday
call 0 1796126399999 0 StartPracticeRun {"resourceIdentifier":"arn:arc:resource/0000000000000001","awayFrom":"az1","comment":""}
call 0 1796126399999 0 CancelPracticeRun {"zonalShiftId":"00000000-0000-0000-0000-000000000001"}
call 0 1796126400000 0 StartPracticeRun {"resourceIdentifier":"arn:arc:resource/0000000000000001","awayFrom":"az1","comment":""}
call 0 1796129999999 0 StartPracticeRun {"resourceIdentifier":"arn:arc:resource/0000000000000001","awayFrom":"az1","comment":""}
call 0 1796130000000 0 StartPracticeRun {"resourceIdentifier":"arn:arc:resource/0000000000000001","awayFrom":"az1","comment":""}
----
slot 0 token 1 200 {"resourceIdentifier":"arn:arc:resource/0000000000000001"}
slot 1 token 2 200 {}
slot 2 token 3 200 {"awayFrom":"az1","comment":"","expiryTime":1796128199999,"practiceRunOutcome":"PENDING","resourceIdentifier":"arn:arc:resource/0000000000000001","startTime":1796126399999,"status":"ACTIVE","zonalShiftId":"00000000-0000-0000-0000-000000000001"}
slot 3 token 4 200 {"awayFrom":"az1","comment":"","expiryTime":1796128199999,"practiceRunOutcome":"INTERRUPTED","resourceIdentifier":"arn:arc:resource/0000000000000001","startTime":1796126399999,"status":"CANCELED","zonalShiftId":"00000000-0000-0000-0000-000000000001"}
slot 4 token 5 409 {"Cause":"BlockedWindow","Reason":"Blocked","__type":"ConflictException"}
slot 5 token 6 409 {"Cause":"BlockedWindow","Reason":"Blocked","__type":"ConflictException"}
slot 6 token 7 200 {"awayFrom":"az1","comment":"","expiryTime":1796131800000,"practiceRunOutcome":"PENDING","resourceIdentifier":"arn:arc:resource/0000000000000001","startTime":1796130000000,"status":"ACTIVE","zonalShiftId":"00000000-0000-0000-0000-000000000002"}

== each day of the week has its window
call 0 0 0 RegisterManagedResource {"name":"lb","availabilityZones":["az1","az2"]}
call 0 0 0 CreatePracticeRunConfiguration {"resourceIdentifier":"arn:arc:resource/0000000000000001","blockedWindows":["Mon:00:00-Mon:00:01","Tue:00:00-Tue:00:01","Wed:00:00-Wed:00:01","Thu:00:00-Thu:00:01","Fri:00:00-Fri:00:01","Sat:00:00-Sat:00:01","Sun:00:00-Sun:00:01"],"outcomeAlarms":[{"alarmIdentifier":"errors"}]}
call 0 0 0 StartPracticeRun {"resourceIdentifier":"arn:arc:resource/0000000000000001","awayFrom":"az1","comment":""}
call 0 86400000 0 StartPracticeRun {"resourceIdentifier":"arn:arc:resource/0000000000000001","awayFrom":"az1","comment":""}
call 0 172800000 0 StartPracticeRun {"resourceIdentifier":"arn:arc:resource/0000000000000001","awayFrom":"az1","comment":""}
call 0 259200000 0 StartPracticeRun {"resourceIdentifier":"arn:arc:resource/0000000000000001","awayFrom":"az1","comment":""}
call 0 345600000 0 StartPracticeRun {"resourceIdentifier":"arn:arc:resource/0000000000000001","awayFrom":"az1","comment":""}
call 0 432000000 0 StartPracticeRun {"resourceIdentifier":"arn:arc:resource/0000000000000001","awayFrom":"az1","comment":""}
call 0 518400000 0 StartPracticeRun {"resourceIdentifier":"arn:arc:resource/0000000000000001","awayFrom":"az1","comment":""}
call 0 604800000 0 StartPracticeRun {"resourceIdentifier":"arn:arc:resource/0000000000000001","awayFrom":"az1","comment":""}
call 0 604860000 0 StartPracticeRun {"resourceIdentifier":"arn:arc:resource/0000000000000001","awayFrom":"az1","comment":""}
----
slot 0 token 1 200 {"resourceIdentifier":"arn:arc:resource/0000000000000001"}
slot 1 token 2 200 {}
slot 2 token 3 409 {"Cause":"BlockedWindow","Reason":"Blocked","__type":"ConflictException"}
slot 3 token 4 409 {"Cause":"BlockedWindow","Reason":"Blocked","__type":"ConflictException"}
slot 4 token 5 409 {"Cause":"BlockedWindow","Reason":"Blocked","__type":"ConflictException"}
slot 5 token 6 409 {"Cause":"BlockedWindow","Reason":"Blocked","__type":"ConflictException"}
slot 6 token 7 409 {"Cause":"BlockedWindow","Reason":"Blocked","__type":"ConflictException"}
slot 7 token 8 409 {"Cause":"BlockedWindow","Reason":"Blocked","__type":"ConflictException"}
slot 8 token 9 409 {"Cause":"BlockedWindow","Reason":"Blocked","__type":"ConflictException"}
slot 9 token 10 409 {"Cause":"BlockedWindow","Reason":"Blocked","__type":"ConflictException"}
slot 10 token 11 200 {"awayFrom":"az1","comment":"","expiryTime":606660000,"practiceRunOutcome":"PENDING","resourceIdentifier":"arn:arc:resource/0000000000000001","startTime":604860000,"status":"ACTIVE","zonalShiftId":"00000000-0000-0000-0000-000000000001"}

== each of several windows blocks
call 0 0 0 RegisterManagedResource {"name":"lb","availabilityZones":["az1","az2"]}
call 0 0 0 CreatePracticeRunConfiguration {"resourceIdentifier":"arn:arc:resource/0000000000000001","blockedWindows":["Thu:00:02-Thu:00:03","Thu:00:00-Thu:00:01"],"outcomeAlarms":[{"alarmIdentifier":"errors"}]}
call 0 0 0 StartPracticeRun {"resourceIdentifier":"arn:arc:resource/0000000000000001","awayFrom":"az1","comment":""}
call 0 60000 0 StartPracticeRun {"resourceIdentifier":"arn:arc:resource/0000000000000001","awayFrom":"az1","comment":""}
call 0 60000 0 CancelPracticeRun {"zonalShiftId":"00000000-0000-0000-0000-000000000001"}
call 0 120000 0 StartPracticeRun {"resourceIdentifier":"arn:arc:resource/0000000000000001","awayFrom":"az1","comment":""}
call 0 180000 0 StartPracticeRun {"resourceIdentifier":"arn:arc:resource/0000000000000001","awayFrom":"az1","comment":""}
----
slot 0 token 1 200 {"resourceIdentifier":"arn:arc:resource/0000000000000001"}
slot 1 token 2 200 {}
slot 2 token 3 409 {"Cause":"BlockedWindow","Reason":"Blocked","__type":"ConflictException"}
slot 3 token 4 200 {"awayFrom":"az1","comment":"","expiryTime":1860000,"practiceRunOutcome":"PENDING","resourceIdentifier":"arn:arc:resource/0000000000000001","startTime":60000,"status":"ACTIVE","zonalShiftId":"00000000-0000-0000-0000-000000000001"}
slot 4 token 5 200 {"awayFrom":"az1","comment":"","expiryTime":1860000,"practiceRunOutcome":"INTERRUPTED","resourceIdentifier":"arn:arc:resource/0000000000000001","startTime":60000,"status":"CANCELED","zonalShiftId":"00000000-0000-0000-0000-000000000001"}
slot 5 token 6 409 {"Cause":"BlockedWindow","Reason":"Blocked","__type":"ConflictException"}
slot 6 token 7 200 {"awayFrom":"az1","comment":"","expiryTime":1980000,"practiceRunOutcome":"PENDING","resourceIdentifier":"arn:arc:resource/0000000000000001","startTime":180000,"status":"ACTIVE","zonalShiftId":"00000000-0000-0000-0000-000000000002"}

== windows may touch and overlap
call 0 0 0 RegisterManagedResource {"name":"lb","availabilityZones":["az1","az2"]}
call 0 0 0 CreatePracticeRunConfiguration {"resourceIdentifier":"arn:arc:resource/0000000000000001","blockedWindows":["Thu:00:00-Thu:00:02","Thu:00:01-Thu:00:03","Thu:00:03-Thu:00:04"],"outcomeAlarms":[{"alarmIdentifier":"errors"}]}
call 0 0 0 StartPracticeRun {"resourceIdentifier":"arn:arc:resource/0000000000000001","awayFrom":"az1","comment":""}
call 0 239999 0 StartPracticeRun {"resourceIdentifier":"arn:arc:resource/0000000000000001","awayFrom":"az1","comment":""}
call 0 240000 0 StartPracticeRun {"resourceIdentifier":"arn:arc:resource/0000000000000001","awayFrom":"az1","comment":""}
----
slot 0 token 1 200 {"resourceIdentifier":"arn:arc:resource/0000000000000001"}
slot 1 token 2 200 {}
slot 2 token 3 409 {"Cause":"BlockedWindow","Reason":"Blocked","__type":"ConflictException"}
slot 3 token 4 409 {"Cause":"BlockedWindow","Reason":"Blocked","__type":"ConflictException"}
slot 4 token 5 200 {"awayFrom":"az1","comment":"","expiryTime":2040000,"practiceRunOutcome":"PENDING","resourceIdentifier":"arn:arc:resource/0000000000000001","startTime":240000,"status":"ACTIVE","zonalShiftId":"00000000-0000-0000-0000-000000000001"}

== a run that has started goes on into a blocked time
call 0 0 0 RegisterManagedResource {"name":"lb","availabilityZones":["az1","az2"]}
call 0 0 0 CreatePracticeRunConfiguration {"resourceIdentifier":"arn:arc:resource/0000000000000001","blockedDates":["1970-01-02"],"blockedWindows":["Thu:23:59-Fri:01:00"],"outcomeAlarms":[{"alarmIdentifier":"errors"}]}
call 0 86339999 0 StartPracticeRun {"resourceIdentifier":"arn:arc:resource/0000000000000001","awayFrom":"az1","comment":""}
call 0 86400000 0 GetManagedResource {"resourceIdentifier":"arn:arc:resource/0000000000000001"}
call 0 88139999 0 ListZonalShifts
----
slot 0 token 1 200 {"resourceIdentifier":"arn:arc:resource/0000000000000001"}
slot 1 token 2 200 {}
slot 2 token 3 200 {"awayFrom":"az1","comment":"","expiryTime":88139999,"practiceRunOutcome":"PENDING","resourceIdentifier":"arn:arc:resource/0000000000000001","startTime":86339999,"status":"ACTIVE","zonalShiftId":"00000000-0000-0000-0000-000000000001"}
slot 3 token 4 200 {"appliedShift":{"awayFrom":"az1","kind":"PRACTICE_RUN"},"availabilityZones":["az1","az2"],"name":"lb","resourceIdentifier":"arn:arc:resource/0000000000000001","zonalAutoshiftStatus":"DISABLED"}
slot 4 token 5 200 {"items":[{"awayFrom":"az1","comment":"","expiryTime":88139999,"practiceRunOutcome":"SUCCEEDED","resourceIdentifier":"arn:arc:resource/0000000000000001","startTime":86339999,"status":"EXPIRED","zonalShiftId":"00000000-0000-0000-0000-000000000001"}]}

== a blocked time stops no shift and no autoshift
call 0 0 0 RegisterManagedResource {"name":"lb","availabilityZones":["az1","az2"]}
call 0 0 0 CreatePracticeRunConfiguration {"resourceIdentifier":"arn:arc:resource/0000000000000001","blockedDates":["1970-01-01"],"blockedWindows":["Thu:00:00-Fri:00:00"],"outcomeAlarms":[{"alarmIdentifier":"errors"}]}
call 0 0 0 UpdateZonalAutoshiftConfiguration {"resourceIdentifier":"arn:arc:resource/0000000000000001","zonalAutoshiftStatus":"ENABLED"}
call 0 0 0 StartZonalShift {"resourceIdentifier":"arn:arc:resource/0000000000000001","awayFrom":"az1","expiresIn":"1m","comment":""}
call 0 0 0 StartAutoshift {"awayFrom":"az2"}
call 0 60000 0 GetManagedResource {"resourceIdentifier":"arn:arc:resource/0000000000000001"}
----
slot 0 token 1 200 {"resourceIdentifier":"arn:arc:resource/0000000000000001"}
slot 1 token 2 200 {}
slot 2 token 3 200 {"resourceIdentifier":"arn:arc:resource/0000000000000001","zonalAutoshiftStatus":"ENABLED"}
slot 3 token 4 200 {"awayFrom":"az1","comment":"","expiryTime":60000,"resourceIdentifier":"arn:arc:resource/0000000000000001","startTime":0,"status":"ACTIVE","zonalShiftId":"00000000-0000-0000-0000-000000000001"}
slot 4 token 5 200 {}
slot 5 token 6 200 {"appliedShift":{"awayFrom":"az2","kind":"AUTOSHIFT"},"availabilityZones":["az1","az2"],"name":"lb","resourceIdentifier":"arn:arc:resource/0000000000000001","zonalAutoshiftStatus":"ENABLED"}

== a time is blocked for its own resource
call 0 0 0 RegisterManagedResource {"name":"lb","availabilityZones":["az1","az2"]}
call 0 0 0 RegisterManagedResource {"name":"api","availabilityZones":["az1","az2"]}
call 0 0 0 CreatePracticeRunConfiguration {"resourceIdentifier":"arn:arc:resource/0000000000000001","blockedDates":["1970-01-01"],"outcomeAlarms":[{"alarmIdentifier":"errors"}]}
call 0 0 0 CreatePracticeRunConfiguration {"resourceIdentifier":"arn:arc:resource/0000000000000002","outcomeAlarms":[{"alarmIdentifier":"errors"}]}
call 0 0 0 StartPracticeRun {"resourceIdentifier":"arn:arc:resource/0000000000000001","awayFrom":"az1","comment":""}
call 0 0 0 StartPracticeRun {"resourceIdentifier":"arn:arc:resource/0000000000000002","awayFrom":"az1","comment":""}
----
slot 0 token 1 200 {"resourceIdentifier":"arn:arc:resource/0000000000000001"}
slot 1 token 2 200 {"resourceIdentifier":"arn:arc:resource/0000000000000002"}
slot 2 token 3 200 {}
slot 3 token 4 200 {}
slot 4 token 5 409 {"Cause":"BlockedDate","Reason":"Blocked","__type":"ConflictException"}
slot 5 token 6 200 {"awayFrom":"az1","comment":"","expiryTime":1800000,"practiceRunOutcome":"PENDING","resourceIdentifier":"arn:arc:resource/0000000000000002","startTime":0,"status":"ACTIVE","zonalShiftId":"00000000-0000-0000-0000-000000000001"}

== a window has two different minutes
call 0 0 0 CreatePracticeRunConfiguration {"resourceIdentifier":"arn:arc:resource/0000000000000001","blockedWindows":["Mon:09:00-Mon:09:00"],"outcomeAlarms":[{"alarmIdentifier":"errors"}]}
---- status 6
script line 1: BadWindow

== a day has 24 hours
call 0 0 0 CreatePracticeRunConfiguration {"resourceIdentifier":"arn:arc:resource/0000000000000001","blockedWindows":["Mon:24:00-Tue:01:00"],"outcomeAlarms":[{"alarmIdentifier":"errors"}]}
---- status 6
script line 1: BadWindow

== an hour has 60 minutes
call 0 0 0 CreatePracticeRunConfiguration {"resourceIdentifier":"arn:arc:resource/0000000000000001","blockedWindows":["Mon:09:60-Mon:10:00"],"outcomeAlarms":[{"alarmIdentifier":"errors"}]}
---- status 6
script line 1: BadWindow

== a day's name is spelled as it is
call 0 0 0 CreatePracticeRunConfiguration {"resourceIdentifier":"arn:arc:resource/0000000000000001","blockedWindows":["mon:09:00-Mon:10:00"],"outcomeAlarms":[{"alarmIdentifier":"errors"}]}
---- status 6
script line 1: BadWindow

== a day's name has three letters
call 0 0 0 CreatePracticeRunConfiguration {"resourceIdentifier":"arn:arc:resource/0000000000000001","blockedWindows":["Monday:09:00-Mon:10:00"],"outcomeAlarms":[{"alarmIdentifier":"errors"}]}
---- status 6
script line 1: BadWindow

== an hour has two digits
call 0 0 0 CreatePracticeRunConfiguration {"resourceIdentifier":"arn:arc:resource/0000000000000001","blockedWindows":["Mon:9:00-Mon:10:00"],"outcomeAlarms":[{"alarmIdentifier":"errors"}]}
---- status 6
script line 1: BadWindow

== a window has an end
call 0 0 0 CreatePracticeRunConfiguration {"resourceIdentifier":"arn:arc:resource/0000000000000001","blockedWindows":["Mon:09:00"],"outcomeAlarms":[{"alarmIdentifier":"errors"}]}
---- status 6
script line 1: BadWindow

== a window names both days
call 0 0 0 CreatePracticeRunConfiguration {"resourceIdentifier":"arn:arc:resource/0000000000000001","blockedWindows":["Mon:09:00-10:00"],"outcomeAlarms":[{"alarmIdentifier":"errors"}]}
---- status 6
script line 1: BadWindow

== a window has no seconds
call 0 0 0 CreatePracticeRunConfiguration {"resourceIdentifier":"arn:arc:resource/0000000000000001","blockedWindows":["Mon:09:00:00-Mon:10:00:00"],"outcomeAlarms":[{"alarmIdentifier":"errors"}]}
---- status 6
script line 1: BadWindow

== a window has no blanks
call 0 0 0 CreatePracticeRunConfiguration {"resourceIdentifier":"arn:arc:resource/0000000000000001","blockedWindows":["Mon:09:00 - Mon:10:00"],"outcomeAlarms":[{"alarmIdentifier":"errors"}]}
---- status 6
script line 1: BadWindow

== an empty window is none
call 0 0 0 CreatePracticeRunConfiguration {"resourceIdentifier":"arn:arc:resource/0000000000000001","blockedWindows":[""],"outcomeAlarms":[{"alarmIdentifier":"errors"}]}
---- status 6
script line 1: BadWindow
