# What becomes of a practice run: the first event within its 30 minutes decides.

== without an event a run succeeds
call 0 0 0 RegisterManagedResource {"name":"lb","availabilityZones":["az1","az2"]}
call 0 0 0 CreatePracticeRunConfiguration {"resourceIdentifier":"arn:arc:resource/0000000000000001","blockedWindows":["Sun:23:30-Mon:00:30"],"outcomeAlarms":[{"alarmIdentifier":"errors"}]}
call 0 347400000 0 StartPracticeRun {"resourceIdentifier":"arn:arc:resource/0000000000000001","awayFrom":"az1","comment":""}
call 0 347400000 0 ListZonalShifts
call 0 349199999 0 ListZonalShifts
call 0 349200000 0 ListZonalShifts
----
slot 0 token 1 200 {"resourceIdentifier":"arn:arc:resource/0000000000000001"}
slot 1 token 2 200 {}
slot 2 token 3 200 {"awayFrom":"az1","comment":"","expiryTime":349200000,"practiceRunOutcome":"PENDING","resourceIdentifier":"arn:arc:resource/0000000000000001","startTime":347400000,"status":"ACTIVE","zonalShiftId":"00000000-0000-0000-0000-000000000001"}
slot 3 token 4 200 {"items":[{"awayFrom":"az1","comment":"","expiryTime":349200000,"practiceRunOutcome":"PENDING","resourceIdentifier":"arn:arc:resource/0000000000000001","startTime":347400000,"status":"ACTIVE","zonalShiftId":"00000000-0000-0000-0000-000000000001"}]}
slot 4 token 5 200 {"items":[{"awayFrom":"az1","comment":"","expiryTime":349200000,"practiceRunOutcome":"PENDING","resourceIdentifier":"arn:arc:resource/0000000000000001","startTime":347400000,"status":"ACTIVE","zonalShiftId":"00000000-0000-0000-0000-000000000001"}]}
slot 5 token 6 200 {"items":[{"awayFrom":"az1","comment":"","expiryTime":349200000,"practiceRunOutcome":"SUCCEEDED","resourceIdentifier":"arn:arc:resource/0000000000000001","startTime":347400000,"status":"EXPIRED","zonalShiftId":"00000000-0000-0000-0000-000000000001"}]}

== an alarm fails a run at its first millisecond
call 0 0 0 RegisterManagedResource {"name":"lb","availabilityZones":["az1","az2"]}
call 0 0 0 CreatePracticeRunConfiguration {"resourceIdentifier":"arn:arc:resource/0000000000000001","blockedWindows":["Sun:23:30-Mon:00:30"],"outcomeAlarms":[{"alarmIdentifier":"errors"}]}
call 0 347400000 0 StartPracticeRun {"resourceIdentifier":"arn:arc:resource/0000000000000001","awayFrom":"az1","comment":""}
call 0 347400000 0 SetAlarmState {"alarmIdentifier":"errors","state":"ALARM"}
call 0 347400000 0 ListZonalShifts
call 0 349200000 0 ListZonalShifts
----
slot 0 token 1 200 {"resourceIdentifier":"arn:arc:resource/0000000000000001"}
slot 1 token 2 200 {}
slot 2 token 3 200 {"awayFrom":"az1","comment":"","expiryTime":349200000,"practiceRunOutcome":"PENDING","resourceIdentifier":"arn:arc:resource/0000000000000001","startTime":347400000,"status":"ACTIVE","zonalShiftId":"00000000-0000-0000-0000-000000000001"}
slot 3 token 4 200 {}
slot 4 token 5 200 {"items":[{"awayFrom":"az1","comment":"","expiryTime":349200000,"practiceRunOutcome":"FAILED","resourceIdentifier":"arn:arc:resource/0000000000000001","startTime":347400000,"status":"CANCELED","zonalShiftId":"00000000-0000-0000-0000-000000000001"}]}
slot 5 token 6 200 {"items":[{"awayFrom":"az1","comment":"","expiryTime":349200000,"practiceRunOutcome":"FAILED","resourceIdentifier":"arn:arc:resource/0000000000000001","startTime":347400000,"status":"CANCELED","zonalShiftId":"00000000-0000-0000-0000-000000000001"}]}

== an alarm fails a run at its last millisecond
call 0 0 0 RegisterManagedResource {"name":"lb","availabilityZones":["az1","az2"]}
call 0 0 0 CreatePracticeRunConfiguration {"resourceIdentifier":"arn:arc:resource/0000000000000001","blockedWindows":["Sun:23:30-Mon:00:30"],"outcomeAlarms":[{"alarmIdentifier":"errors"}]}
call 0 347400000 0 StartPracticeRun {"resourceIdentifier":"arn:arc:resource/0000000000000001","awayFrom":"az1","comment":""}
call 0 349199999 0 SetAlarmState {"alarmIdentifier":"errors","state":"ALARM"}
call 0 349199999 0 ListZonalShifts
call 0 349199999 0 CancelPracticeRun {"zonalShiftId":"00000000-0000-0000-0000-000000000001"}
call 0 349200000 0 ListZonalShifts
----
slot 0 token 1 200 {"resourceIdentifier":"arn:arc:resource/0000000000000001"}
slot 1 token 2 200 {}
slot 2 token 3 200 {"awayFrom":"az1","comment":"","expiryTime":349200000,"practiceRunOutcome":"PENDING","resourceIdentifier":"arn:arc:resource/0000000000000001","startTime":347400000,"status":"ACTIVE","zonalShiftId":"00000000-0000-0000-0000-000000000001"}
slot 3 token 4 200 {}
slot 4 token 5 200 {"items":[{"awayFrom":"az1","comment":"","expiryTime":349200000,"practiceRunOutcome":"FAILED","resourceIdentifier":"arn:arc:resource/0000000000000001","startTime":347400000,"status":"CANCELED","zonalShiftId":"00000000-0000-0000-0000-000000000001"}]}
slot 5 token 6 409 {"Reason":"NotActive","Status":"CANCELED","__type":"ConflictException"}
slot 6 token 7 200 {"items":[{"awayFrom":"az1","comment":"","expiryTime":349200000,"practiceRunOutcome":"FAILED","resourceIdentifier":"arn:arc:resource/0000000000000001","startTime":347400000,"status":"CANCELED","zonalShiftId":"00000000-0000-0000-0000-000000000001"}]}

== an alarm a millisecond later changes nothing
call 0 0 0 RegisterManagedResource {"name":"lb","availabilityZones":["az1","az2"]}
call 0 0 0 CreatePracticeRunConfiguration {"resourceIdentifier":"arn:arc:resource/0000000000000001","blockedWindows":["Sun:23:30-Mon:00:30"],"outcomeAlarms":[{"alarmIdentifier":"errors"}]}
call 0 347400000 0 StartPracticeRun {"resourceIdentifier":"arn:arc:resource/0000000000000001","awayFrom":"az1","comment":""}
call 0 349200000 0 SetAlarmState {"alarmIdentifier":"errors","state":"ALARM"}
call 0 349200000 0 ListZonalShifts
call 0 349200000 0 CancelPracticeRun {"zonalShiftId":"00000000-0000-0000-0000-000000000001"}
----
slot 0 token 1 200 {"resourceIdentifier":"arn:arc:resource/0000000000000001"}
slot 1 token 2 200 {}
slot 2 token 3 200 {"awayFrom":"az1","comment":"","expiryTime":349200000,"practiceRunOutcome":"PENDING","resourceIdentifier":"arn:arc:resource/0000000000000001","startTime":347400000,"status":"ACTIVE","zonalShiftId":"00000000-0000-0000-0000-000000000001"}
slot 3 token 4 200 {}
slot 4 token 5 200 {"items":[{"awayFrom":"az1","comment":"","expiryTime":349200000,"practiceRunOutcome":"SUCCEEDED","resourceIdentifier":"arn:arc:resource/0000000000000001","startTime":347400000,"status":"EXPIRED","zonalShiftId":"00000000-0000-0000-0000-000000000001"}]}
slot 5 token 6 409 {"Reason":"NotActive","Status":"EXPIRED","__type":"ConflictException"}

== a cancel interrupts a run at its first millisecond
call 0 0 0 RegisterManagedResource {"name":"lb","availabilityZones":["az1","az2"]}
call 0 0 0 CreatePracticeRunConfiguration {"resourceIdentifier":"arn:arc:resource/0000000000000001","blockedWindows":["Sun:23:30-Mon:00:30"],"outcomeAlarms":[{"alarmIdentifier":"errors"}]}
call 0 347400000 0 StartPracticeRun {"resourceIdentifier":"arn:arc:resource/0000000000000001","awayFrom":"az1","comment":""}
call 0 347400000 0 CancelPracticeRun {"zonalShiftId":"00000000-0000-0000-0000-000000000001"}
call 0 349200000 0 ListZonalShifts
----
slot 0 token 1 200 {"resourceIdentifier":"arn:arc:resource/0000000000000001"}
slot 1 token 2 200 {}
slot 2 token 3 200 {"awayFrom":"az1","comment":"","expiryTime":349200000,"practiceRunOutcome":"PENDING","resourceIdentifier":"arn:arc:resource/0000000000000001","startTime":347400000,"status":"ACTIVE","zonalShiftId":"00000000-0000-0000-0000-000000000001"}
slot 3 token 4 200 {"awayFrom":"az1","comment":"","expiryTime":349200000,"practiceRunOutcome":"INTERRUPTED","resourceIdentifier":"arn:arc:resource/0000000000000001","startTime":347400000,"status":"CANCELED","zonalShiftId":"00000000-0000-0000-0000-000000000001"}
slot 4 token 5 200 {"items":[{"awayFrom":"az1","comment":"","expiryTime":349200000,"practiceRunOutcome":"INTERRUPTED","resourceIdentifier":"arn:arc:resource/0000000000000001","startTime":347400000,"status":"CANCELED","zonalShiftId":"00000000-0000-0000-0000-000000000001"}]}

== a shift of the customer interrupts a run at its last millisecond
call 0 0 0 RegisterManagedResource {"name":"lb","availabilityZones":["az1","az2"]}
call 0 0 0 CreatePracticeRunConfiguration {"resourceIdentifier":"arn:arc:resource/0000000000000001","blockedWindows":["Sun:23:30-Mon:00:30"],"outcomeAlarms":[{"alarmIdentifier":"errors"}]}
call 0 347400000 0 StartPracticeRun {"resourceIdentifier":"arn:arc:resource/0000000000000001","awayFrom":"az1","comment":""}
call 0 349199999 0 StartZonalShift {"resourceIdentifier":"arn:arc:resource/0000000000000001","awayFrom":"az2","expiresIn":"1m","comment":""}
call 0 349200000 0 ListZonalShifts
----
slot 0 token 1 200 {"resourceIdentifier":"arn:arc:resource/0000000000000001"}
slot 1 token 2 200 {}
slot 2 token 3 200 {"awayFrom":"az1","comment":"","expiryTime":349200000,"practiceRunOutcome":"PENDING","resourceIdentifier":"arn:arc:resource/0000000000000001","startTime":347400000,"status":"ACTIVE","zonalShiftId":"00000000-0000-0000-0000-000000000001"}
slot 3 token 4 200 {"awayFrom":"az2","comment":"","expiryTime":349259999,"resourceIdentifier":"arn:arc:resource/0000000000000001","startTime":349199999,"status":"ACTIVE","zonalShiftId":"00000000-0000-0000-0000-000000000002"}
slot 4 token 5 200 {"items":[{"awayFrom":"az1","comment":"","expiryTime":349200000,"practiceRunOutcome":"INTERRUPTED","resourceIdentifier":"arn:arc:resource/0000000000000001","startTime":347400000,"status":"CANCELED","zonalShiftId":"00000000-0000-0000-0000-000000000001"},{"awayFrom":"az2","comment":"","expiryTime":349259999,"resourceIdentifier":"arn:arc:resource/0000000000000001","startTime":349199999,"status":"ACTIVE","zonalShiftId":"00000000-0000-0000-0000-000000000002"}]}

== a shift of the customer a millisecond later changes nothing
call 0 0 0 RegisterManagedResource {"name":"lb","availabilityZones":["az1","az2"]}
call 0 0 0 CreatePracticeRunConfiguration {"resourceIdentifier":"arn:arc:resource/0000000000000001","blockedWindows":["Sun:23:30-Mon:00:30"],"outcomeAlarms":[{"alarmIdentifier":"errors"}]}
call 0 347400000 0 StartPracticeRun {"resourceIdentifier":"arn:arc:resource/0000000000000001","awayFrom":"az1","comment":""}
call 0 349200000 0 StartZonalShift {"resourceIdentifier":"arn:arc:resource/0000000000000001","awayFrom":"az1","expiresIn":"1m","comment":""}
call 0 349200000 0 ListZonalShifts
----
slot 0 token 1 200 {"resourceIdentifier":"arn:arc:resource/0000000000000001"}
slot 1 token 2 200 {}
slot 2 token 3 200 {"awayFrom":"az1","comment":"","expiryTime":349200000,"practiceRunOutcome":"PENDING","resourceIdentifier":"arn:arc:resource/0000000000000001","startTime":347400000,"status":"ACTIVE","zonalShiftId":"00000000-0000-0000-0000-000000000001"}
slot 3 token 4 200 {"awayFrom":"az1","comment":"","expiryTime":349260000,"resourceIdentifier":"arn:arc:resource/0000000000000001","startTime":349200000,"status":"ACTIVE","zonalShiftId":"00000000-0000-0000-0000-000000000002"}
slot 4 token 5 200 {"items":[{"awayFrom":"az1","comment":"","expiryTime":349200000,"practiceRunOutcome":"SUCCEEDED","resourceIdentifier":"arn:arc:resource/0000000000000001","startTime":347400000,"status":"EXPIRED","zonalShiftId":"00000000-0000-0000-0000-000000000001"},{"awayFrom":"az1","comment":"","expiryTime":349260000,"resourceIdentifier":"arn:arc:resource/0000000000000001","startTime":349200000,"status":"ACTIVE","zonalShiftId":"00000000-0000-0000-0000-000000000002"}]}

== a shift of another resource interrupts nothing
call 0 0 0 RegisterManagedResource {"name":"lb","availabilityZones":["az1","az2"]}
call 0 0 0 CreatePracticeRunConfiguration {"resourceIdentifier":"arn:arc:resource/0000000000000001","blockedWindows":["Sun:23:30-Mon:00:30"],"outcomeAlarms":[{"alarmIdentifier":"errors"}]}
call 0 347400000 0 StartPracticeRun {"resourceIdentifier":"arn:arc:resource/0000000000000001","awayFrom":"az1","comment":""}
call 0 347400000 0 RegisterManagedResource {"name":"api","availabilityZones":["az1","az2"]}
call 0 347400000 0 StartZonalShift {"resourceIdentifier":"arn:arc:resource/0000000000000002","awayFrom":"az1","expiresIn":"1m","comment":""}
call 0 347400000 0 ListZonalShifts {"resourceIdentifier":"arn:arc:resource/0000000000000001"}
----
slot 0 token 1 200 {"resourceIdentifier":"arn:arc:resource/0000000000000001"}
slot 1 token 2 200 {}
slot 2 token 3 200 {"awayFrom":"az1","comment":"","expiryTime":349200000,"practiceRunOutcome":"PENDING","resourceIdentifier":"arn:arc:resource/0000000000000001","startTime":347400000,"status":"ACTIVE","zonalShiftId":"00000000-0000-0000-0000-000000000001"}
slot 3 token 4 200 {"resourceIdentifier":"arn:arc:resource/0000000000000002"}
slot 4 token 5 200 {"awayFrom":"az1","comment":"","expiryTime":347460000,"resourceIdentifier":"arn:arc:resource/0000000000000002","startTime":347400000,"status":"ACTIVE","zonalShiftId":"00000000-0000-0000-0000-000000000002"}
slot 5 token 6 200 {"items":[{"awayFrom":"az1","comment":"","expiryTime":349200000,"practiceRunOutcome":"PENDING","resourceIdentifier":"arn:arc:resource/0000000000000001","startTime":347400000,"status":"ACTIVE","zonalShiftId":"00000000-0000-0000-0000-000000000001"}]}

== a refused shift interrupts nothing
call 0 0 0 RegisterManagedResource {"name":"lb","availabilityZones":["az1","az2"]}
call 0 0 0 CreatePracticeRunConfiguration {"resourceIdentifier":"arn:arc:resource/0000000000000001","blockedWindows":["Sun:23:30-Mon:00:30"],"outcomeAlarms":[{"alarmIdentifier":"errors"}]}
call 0 347400000 0 StartPracticeRun {"resourceIdentifier":"arn:arc:resource/0000000000000001","awayFrom":"az1","comment":""}
call 0 347400000 0 StartZonalShift {"resourceIdentifier":"arn:arc:resource/0000000000000001","awayFrom":"az3","expiresIn":"1m","comment":""}
call 0 347400000 0 ListZonalShifts
----
slot 0 token 1 200 {"resourceIdentifier":"arn:arc:resource/0000000000000001"}
slot 1 token 2 200 {}
slot 2 token 3 200 {"awayFrom":"az1","comment":"","expiryTime":349200000,"practiceRunOutcome":"PENDING","resourceIdentifier":"arn:arc:resource/0000000000000001","startTime":347400000,"status":"ACTIVE","zonalShiftId":"00000000-0000-0000-0000-000000000001"}
slot 3 token 4 400 {"AwayFrom":"az3","Reason":"WrongZone","__type":"ValidationException"}
slot 4 token 5 200 {"items":[{"awayFrom":"az1","comment":"","expiryTime":349200000,"practiceRunOutcome":"PENDING","resourceIdentifier":"arn:arc:resource/0000000000000001","startTime":347400000,"status":"ACTIVE","zonalShiftId":"00000000-0000-0000-0000-000000000001"}]}

== an autoshift interrupts a run at its last millisecond
call 0 0 0 RegisterManagedResource {"name":"lb","availabilityZones":["az1","az2"]}
call 0 0 0 CreatePracticeRunConfiguration {"resourceIdentifier":"arn:arc:resource/0000000000000001","blockedWindows":["Sun:23:30-Mon:00:30"],"outcomeAlarms":[{"alarmIdentifier":"errors"}]}
call 0 347400000 0 StartPracticeRun {"resourceIdentifier":"arn:arc:resource/0000000000000001","awayFrom":"az1","comment":""}
call 0 347400000 0 UpdateZonalAutoshiftConfiguration {"resourceIdentifier":"arn:arc:resource/0000000000000001","zonalAutoshiftStatus":"ENABLED"}
call 0 349199999 0 StartAutoshift {"awayFrom":"az2"}
call 0 349200000 0 ListZonalShifts
----
slot 0 token 1 200 {"resourceIdentifier":"arn:arc:resource/0000000000000001"}
slot 1 token 2 200 {}
slot 2 token 3 200 {"awayFrom":"az1","comment":"","expiryTime":349200000,"practiceRunOutcome":"PENDING","resourceIdentifier":"arn:arc:resource/0000000000000001","startTime":347400000,"status":"ACTIVE","zonalShiftId":"00000000-0000-0000-0000-000000000001"}
slot 3 token 4 200 {"resourceIdentifier":"arn:arc:resource/0000000000000001","zonalAutoshiftStatus":"ENABLED"}
slot 4 token 5 200 {}
slot 5 token 6 200 {"items":[{"awayFrom":"az1","comment":"","expiryTime":349200000,"practiceRunOutcome":"INTERRUPTED","resourceIdentifier":"arn:arc:resource/0000000000000001","startTime":347400000,"status":"CANCELED","zonalShiftId":"00000000-0000-0000-0000-000000000001"}]}

== an autoshift a millisecond later changes nothing
call 0 0 0 RegisterManagedResource {"name":"lb","availabilityZones":["az1","az2"]}
call 0 0 0 CreatePracticeRunConfiguration {"resourceIdentifier":"arn:arc:resource/0000000000000001","blockedWindows":["Sun:23:30-Mon:00:30"],"outcomeAlarms":[{"alarmIdentifier":"errors"}]}
call 0 347400000 0 StartPracticeRun {"resourceIdentifier":"arn:arc:resource/0000000000000001","awayFrom":"az1","comment":""}
call 0 347400000 0 UpdateZonalAutoshiftConfiguration {"resourceIdentifier":"arn:arc:resource/0000000000000001","zonalAutoshiftStatus":"ENABLED"}
call 0 349200000 0 StartAutoshift {"awayFrom":"az2"}
call 0 349200000 0 ListZonalShifts
----
slot 0 token 1 200 {"resourceIdentifier":"arn:arc:resource/0000000000000001"}
slot 1 token 2 200 {}
slot 2 token 3 200 {"awayFrom":"az1","comment":"","expiryTime":349200000,"practiceRunOutcome":"PENDING","resourceIdentifier":"arn:arc:resource/0000000000000001","startTime":347400000,"status":"ACTIVE","zonalShiftId":"00000000-0000-0000-0000-000000000001"}
slot 3 token 4 200 {"resourceIdentifier":"arn:arc:resource/0000000000000001","zonalAutoshiftStatus":"ENABLED"}
slot 4 token 5 200 {}
slot 5 token 6 200 {"items":[{"awayFrom":"az1","comment":"","expiryTime":349200000,"practiceRunOutcome":"SUCCEEDED","resourceIdentifier":"arn:arc:resource/0000000000000001","startTime":347400000,"status":"EXPIRED","zonalShiftId":"00000000-0000-0000-0000-000000000001"}]}

== enabling an autoshift interrupts a run at its last millisecond
call 0 0 0 RegisterManagedResource {"name":"lb","availabilityZones":["az1","az2"]}
call 0 0 0 CreatePracticeRunConfiguration {"resourceIdentifier":"arn:arc:resource/0000000000000001","blockedWindows":["Sun:23:30-Mon:00:30"],"outcomeAlarms":[{"alarmIdentifier":"errors"}]}
call 0 347400000 0 StartPracticeRun {"resourceIdentifier":"arn:arc:resource/0000000000000001","awayFrom":"az1","comment":""}
call 0 347400000 0 StartAutoshift {"awayFrom":"az2"}
call 0 349199999 0 ListZonalShifts
call 0 349199999 0 UpdateZonalAutoshiftConfiguration {"resourceIdentifier":"arn:arc:resource/0000000000000001","zonalAutoshiftStatus":"ENABLED"}
call 0 349199999 0 ListZonalShifts
----
slot 0 token 1 200 {"resourceIdentifier":"arn:arc:resource/0000000000000001"}
slot 1 token 2 200 {}
slot 2 token 3 200 {"awayFrom":"az1","comment":"","expiryTime":349200000,"practiceRunOutcome":"PENDING","resourceIdentifier":"arn:arc:resource/0000000000000001","startTime":347400000,"status":"ACTIVE","zonalShiftId":"00000000-0000-0000-0000-000000000001"}
slot 3 token 4 200 {}
slot 4 token 5 200 {"items":[{"awayFrom":"az1","comment":"","expiryTime":349200000,"practiceRunOutcome":"PENDING","resourceIdentifier":"arn:arc:resource/0000000000000001","startTime":347400000,"status":"ACTIVE","zonalShiftId":"00000000-0000-0000-0000-000000000001"}]}
slot 5 token 6 200 {"resourceIdentifier":"arn:arc:resource/0000000000000001","zonalAutoshiftStatus":"ENABLED"}
slot 6 token 7 200 {"items":[{"awayFrom":"az1","comment":"","expiryTime":349200000,"practiceRunOutcome":"INTERRUPTED","resourceIdentifier":"arn:arc:resource/0000000000000001","startTime":347400000,"status":"CANCELED","zonalShiftId":"00000000-0000-0000-0000-000000000001"}]}

== enabling an autoshift a millisecond later changes nothing
call 0 0 0 RegisterManagedResource {"name":"lb","availabilityZones":["az1","az2"]}
call 0 0 0 CreatePracticeRunConfiguration {"resourceIdentifier":"arn:arc:resource/0000000000000001","blockedWindows":["Sun:23:30-Mon:00:30"],"outcomeAlarms":[{"alarmIdentifier":"errors"}]}
call 0 347400000 0 StartPracticeRun {"resourceIdentifier":"arn:arc:resource/0000000000000001","awayFrom":"az1","comment":""}
call 0 347400000 0 StartAutoshift {"awayFrom":"az2"}
call 0 349200000 0 UpdateZonalAutoshiftConfiguration {"resourceIdentifier":"arn:arc:resource/0000000000000001","zonalAutoshiftStatus":"ENABLED"}
call 0 349200000 0 ListZonalShifts
----
slot 0 token 1 200 {"resourceIdentifier":"arn:arc:resource/0000000000000001"}
slot 1 token 2 200 {}
slot 2 token 3 200 {"awayFrom":"az1","comment":"","expiryTime":349200000,"practiceRunOutcome":"PENDING","resourceIdentifier":"arn:arc:resource/0000000000000001","startTime":347400000,"status":"ACTIVE","zonalShiftId":"00000000-0000-0000-0000-000000000001"}
slot 3 token 4 200 {}
slot 4 token 5 200 {"resourceIdentifier":"arn:arc:resource/0000000000000001","zonalAutoshiftStatus":"ENABLED"}
slot 5 token 6 200 {"items":[{"awayFrom":"az1","comment":"","expiryTime":349200000,"practiceRunOutcome":"SUCCEEDED","resourceIdentifier":"arn:arc:resource/0000000000000001","startTime":347400000,"status":"EXPIRED","zonalShiftId":"00000000-0000-0000-0000-000000000001"}]}

== a cancel comes before an alarm
call 0 0 0 RegisterManagedResource {"name":"lb","availabilityZones":["az1","az2"]}
call 0 0 0 CreatePracticeRunConfiguration {"resourceIdentifier":"arn:arc:resource/0000000000000001","blockedWindows":["Sun:23:30-Mon:00:30"],"outcomeAlarms":[{"alarmIdentifier":"errors"}]}
call 0 347400000 0 StartPracticeRun {"resourceIdentifier":"arn:arc:resource/0000000000000001","awayFrom":"az1","comment":""}
call 0 347400000 0 CancelPracticeRun {"zonalShiftId":"00000000-0000-0000-0000-000000000001"}
call 0 347400000 0 SetAlarmState {"alarmIdentifier":"errors","state":"ALARM"}
call 0 347400000 0 ListZonalShifts
----
slot 0 token 1 200 {"resourceIdentifier":"arn:arc:resource/0000000000000001"}
slot 1 token 2 200 {}
slot 2 token 3 200 {"awayFrom":"az1","comment":"","expiryTime":349200000,"practiceRunOutcome":"PENDING","resourceIdentifier":"arn:arc:resource/0000000000000001","startTime":347400000,"status":"ACTIVE","zonalShiftId":"00000000-0000-0000-0000-000000000001"}
slot 3 token 4 200 {"awayFrom":"az1","comment":"","expiryTime":349200000,"practiceRunOutcome":"INTERRUPTED","resourceIdentifier":"arn:arc:resource/0000000000000001","startTime":347400000,"status":"CANCELED","zonalShiftId":"00000000-0000-0000-0000-000000000001"}
slot 4 token 5 200 {}
slot 5 token 6 200 {"items":[{"awayFrom":"az1","comment":"","expiryTime":349200000,"practiceRunOutcome":"INTERRUPTED","resourceIdentifier":"arn:arc:resource/0000000000000001","startTime":347400000,"status":"CANCELED","zonalShiftId":"00000000-0000-0000-0000-000000000001"}]}

== an alarm comes before a cancel
call 0 0 0 RegisterManagedResource {"name":"lb","availabilityZones":["az1","az2"]}
call 0 0 0 CreatePracticeRunConfiguration {"resourceIdentifier":"arn:arc:resource/0000000000000001","blockedWindows":["Sun:23:30-Mon:00:30"],"outcomeAlarms":[{"alarmIdentifier":"errors"}]}
call 0 347400000 0 StartPracticeRun {"resourceIdentifier":"arn:arc:resource/0000000000000001","awayFrom":"az1","comment":""}
call 0 347400000 0 SetAlarmState {"alarmIdentifier":"errors","state":"ALARM"}
call 0 347400000 0 CancelPracticeRun {"zonalShiftId":"00000000-0000-0000-0000-000000000001"}
call 0 347400000 0 ListZonalShifts
----
slot 0 token 1 200 {"resourceIdentifier":"arn:arc:resource/0000000000000001"}
slot 1 token 2 200 {}
slot 2 token 3 200 {"awayFrom":"az1","comment":"","expiryTime":349200000,"practiceRunOutcome":"PENDING","resourceIdentifier":"arn:arc:resource/0000000000000001","startTime":347400000,"status":"ACTIVE","zonalShiftId":"00000000-0000-0000-0000-000000000001"}
slot 3 token 4 200 {}
slot 4 token 5 409 {"Reason":"NotActive","Status":"CANCELED","__type":"ConflictException"}
slot 5 token 6 200 {"items":[{"awayFrom":"az1","comment":"","expiryTime":349200000,"practiceRunOutcome":"FAILED","resourceIdentifier":"arn:arc:resource/0000000000000001","startTime":347400000,"status":"CANCELED","zonalShiftId":"00000000-0000-0000-0000-000000000001"}]}

== an alarm comes before a shift of the customer
call 0 0 0 RegisterManagedResource {"name":"lb","availabilityZones":["az1","az2"]}
call 0 0 0 CreatePracticeRunConfiguration {"resourceIdentifier":"arn:arc:resource/0000000000000001","blockedWindows":["Sun:23:30-Mon:00:30"],"outcomeAlarms":[{"alarmIdentifier":"errors"}]}
call 0 347400000 0 StartPracticeRun {"resourceIdentifier":"arn:arc:resource/0000000000000001","awayFrom":"az1","comment":""}
call 0 347400000 0 SetAlarmState {"alarmIdentifier":"errors","state":"ALARM"}
call 0 347400000 0 StartZonalShift {"resourceIdentifier":"arn:arc:resource/0000000000000001","awayFrom":"az1","expiresIn":"1m","comment":""}
call 0 347400000 0 ListZonalShifts
----
slot 0 token 1 200 {"resourceIdentifier":"arn:arc:resource/0000000000000001"}
slot 1 token 2 200 {}
slot 2 token 3 200 {"awayFrom":"az1","comment":"","expiryTime":349200000,"practiceRunOutcome":"PENDING","resourceIdentifier":"arn:arc:resource/0000000000000001","startTime":347400000,"status":"ACTIVE","zonalShiftId":"00000000-0000-0000-0000-000000000001"}
slot 3 token 4 200 {}
slot 4 token 5 200 {"awayFrom":"az1","comment":"","expiryTime":347460000,"resourceIdentifier":"arn:arc:resource/0000000000000001","startTime":347400000,"status":"ACTIVE","zonalShiftId":"00000000-0000-0000-0000-000000000002"}
slot 5 token 6 200 {"items":[{"awayFrom":"az1","comment":"","expiryTime":349200000,"practiceRunOutcome":"FAILED","resourceIdentifier":"arn:arc:resource/0000000000000001","startTime":347400000,"status":"CANCELED","zonalShiftId":"00000000-0000-0000-0000-000000000001"},{"awayFrom":"az1","comment":"","expiryTime":347460000,"resourceIdentifier":"arn:arc:resource/0000000000000001","startTime":347400000,"status":"ACTIVE","zonalShiftId":"00000000-0000-0000-0000-000000000002"}]}

== a shift of the customer comes before an alarm
call 0 0 0 RegisterManagedResource {"name":"lb","availabilityZones":["az1","az2"]}
call 0 0 0 CreatePracticeRunConfiguration {"resourceIdentifier":"arn:arc:resource/0000000000000001","blockedWindows":["Sun:23:30-Mon:00:30"],"outcomeAlarms":[{"alarmIdentifier":"errors"}]}
call 0 347400000 0 StartPracticeRun {"resourceIdentifier":"arn:arc:resource/0000000000000001","awayFrom":"az1","comment":""}
call 0 347400000 0 StartZonalShift {"resourceIdentifier":"arn:arc:resource/0000000000000001","awayFrom":"az1","expiresIn":"1m","comment":""}
call 0 347400000 0 SetAlarmState {"alarmIdentifier":"errors","state":"ALARM"}
call 0 347400000 0 ListZonalShifts
----
slot 0 token 1 200 {"resourceIdentifier":"arn:arc:resource/0000000000000001"}
slot 1 token 2 200 {}
slot 2 token 3 200 {"awayFrom":"az1","comment":"","expiryTime":349200000,"practiceRunOutcome":"PENDING","resourceIdentifier":"arn:arc:resource/0000000000000001","startTime":347400000,"status":"ACTIVE","zonalShiftId":"00000000-0000-0000-0000-000000000001"}
slot 3 token 4 200 {"awayFrom":"az1","comment":"","expiryTime":347460000,"resourceIdentifier":"arn:arc:resource/0000000000000001","startTime":347400000,"status":"ACTIVE","zonalShiftId":"00000000-0000-0000-0000-000000000002"}
slot 4 token 5 200 {}
slot 5 token 6 200 {"items":[{"awayFrom":"az1","comment":"","expiryTime":349200000,"practiceRunOutcome":"INTERRUPTED","resourceIdentifier":"arn:arc:resource/0000000000000001","startTime":347400000,"status":"CANCELED","zonalShiftId":"00000000-0000-0000-0000-000000000001"},{"awayFrom":"az1","comment":"","expiryTime":347460000,"resourceIdentifier":"arn:arc:resource/0000000000000001","startTime":347400000,"status":"ACTIVE","zonalShiftId":"00000000-0000-0000-0000-000000000002"}]}

== an alarm comes before an autoshift
call 0 0 0 RegisterManagedResource {"name":"lb","availabilityZones":["az1","az2"]}
call 0 0 0 CreatePracticeRunConfiguration {"resourceIdentifier":"arn:arc:resource/0000000000000001","blockedWindows":["Sun:23:30-Mon:00:30"],"outcomeAlarms":[{"alarmIdentifier":"errors"}]}
call 0 347400000 0 StartPracticeRun {"resourceIdentifier":"arn:arc:resource/0000000000000001","awayFrom":"az1","comment":""}
call 0 347400000 0 UpdateZonalAutoshiftConfiguration {"resourceIdentifier":"arn:arc:resource/0000000000000001","zonalAutoshiftStatus":"ENABLED"}
call 0 347400000 0 SetAlarmState {"alarmIdentifier":"errors","state":"ALARM"}
call 0 347400000 0 StartAutoshift {"awayFrom":"az2"}
call 0 347400000 0 ListZonalShifts
----
slot 0 token 1 200 {"resourceIdentifier":"arn:arc:resource/0000000000000001"}
slot 1 token 2 200 {}
slot 2 token 3 200 {"awayFrom":"az1","comment":"","expiryTime":349200000,"practiceRunOutcome":"PENDING","resourceIdentifier":"arn:arc:resource/0000000000000001","startTime":347400000,"status":"ACTIVE","zonalShiftId":"00000000-0000-0000-0000-000000000001"}
slot 3 token 4 200 {"resourceIdentifier":"arn:arc:resource/0000000000000001","zonalAutoshiftStatus":"ENABLED"}
slot 4 token 5 200 {}
slot 5 token 6 200 {}
slot 6 token 7 200 {"items":[{"awayFrom":"az1","comment":"","expiryTime":349200000,"practiceRunOutcome":"FAILED","resourceIdentifier":"arn:arc:resource/0000000000000001","startTime":347400000,"status":"CANCELED","zonalShiftId":"00000000-0000-0000-0000-000000000001"}]}

== an autoshift comes before an alarm
call 0 0 0 RegisterManagedResource {"name":"lb","availabilityZones":["az1","az2"]}
call 0 0 0 CreatePracticeRunConfiguration {"resourceIdentifier":"arn:arc:resource/0000000000000001","blockedWindows":["Sun:23:30-Mon:00:30"],"outcomeAlarms":[{"alarmIdentifier":"errors"}]}
call 0 347400000 0 StartPracticeRun {"resourceIdentifier":"arn:arc:resource/0000000000000001","awayFrom":"az1","comment":""}
call 0 347400000 0 UpdateZonalAutoshiftConfiguration {"resourceIdentifier":"arn:arc:resource/0000000000000001","zonalAutoshiftStatus":"ENABLED"}
call 0 347400000 0 StartAutoshift {"awayFrom":"az2"}
call 0 347400000 0 SetAlarmState {"alarmIdentifier":"errors","state":"ALARM"}
call 0 347400000 0 ListZonalShifts
----
slot 0 token 1 200 {"resourceIdentifier":"arn:arc:resource/0000000000000001"}
slot 1 token 2 200 {}
slot 2 token 3 200 {"awayFrom":"az1","comment":"","expiryTime":349200000,"practiceRunOutcome":"PENDING","resourceIdentifier":"arn:arc:resource/0000000000000001","startTime":347400000,"status":"ACTIVE","zonalShiftId":"00000000-0000-0000-0000-000000000001"}
slot 3 token 4 200 {"resourceIdentifier":"arn:arc:resource/0000000000000001","zonalAutoshiftStatus":"ENABLED"}
slot 4 token 5 200 {}
slot 5 token 6 200 {}
slot 6 token 7 200 {"items":[{"awayFrom":"az1","comment":"","expiryTime":349200000,"practiceRunOutcome":"INTERRUPTED","resourceIdentifier":"arn:arc:resource/0000000000000001","startTime":347400000,"status":"CANCELED","zonalShiftId":"00000000-0000-0000-0000-000000000001"}]}

== a shift that ends doesn't bring the run back
call 0 0 0 RegisterManagedResource {"name":"lb","availabilityZones":["az1","az2"]}
call 0 0 0 CreatePracticeRunConfiguration {"resourceIdentifier":"arn:arc:resource/0000000000000001","blockedWindows":["Sun:23:30-Mon:00:30"],"outcomeAlarms":[{"alarmIdentifier":"errors"}]}
call 0 347400000 0 StartPracticeRun {"resourceIdentifier":"arn:arc:resource/0000000000000001","awayFrom":"az1","comment":""}
call 0 347400000 0 StartZonalShift {"resourceIdentifier":"arn:arc:resource/0000000000000001","awayFrom":"az1","expiresIn":"1m","comment":""}
call 0 347400000 0 CancelZonalShift {"zonalShiftId":"00000000-0000-0000-0000-000000000002"}
call 0 347400000 0 GetManagedResource {"resourceIdentifier":"arn:arc:resource/0000000000000001"}
call 0 347400000 0 ListZonalShifts
----
slot 0 token 1 200 {"resourceIdentifier":"arn:arc:resource/0000000000000001"}
slot 1 token 2 200 {}
slot 2 token 3 200 {"awayFrom":"az1","comment":"","expiryTime":349200000,"practiceRunOutcome":"PENDING","resourceIdentifier":"arn:arc:resource/0000000000000001","startTime":347400000,"status":"ACTIVE","zonalShiftId":"00000000-0000-0000-0000-000000000001"}
slot 3 token 4 200 {"awayFrom":"az1","comment":"","expiryTime":347460000,"resourceIdentifier":"arn:arc:resource/0000000000000001","startTime":347400000,"status":"ACTIVE","zonalShiftId":"00000000-0000-0000-0000-000000000002"}
slot 4 token 5 200 {"awayFrom":"az1","comment":"","expiryTime":347460000,"resourceIdentifier":"arn:arc:resource/0000000000000001","startTime":347400000,"status":"CANCELED","zonalShiftId":"00000000-0000-0000-0000-000000000002"}
slot 5 token 6 200 {"appliedShift":null,"availabilityZones":["az1","az2"],"name":"lb","resourceIdentifier":"arn:arc:resource/0000000000000001","zonalAutoshiftStatus":"DISABLED"}
slot 6 token 7 200 {"items":[{"awayFrom":"az1","comment":"","expiryTime":349200000,"practiceRunOutcome":"INTERRUPTED","resourceIdentifier":"arn:arc:resource/0000000000000001","startTime":347400000,"status":"CANCELED","zonalShiftId":"00000000-0000-0000-0000-000000000001"},{"awayFrom":"az1","comment":"","expiryTime":347460000,"resourceIdentifier":"arn:arc:resource/0000000000000001","startTime":347400000,"status":"CANCELED","zonalShiftId":"00000000-0000-0000-0000-000000000002"}]}

== an autoshift that ends doesn't bring the run back
call 0 0 0 RegisterManagedResource {"name":"lb","availabilityZones":["az1","az2"]}
call 0 0 0 CreatePracticeRunConfiguration {"resourceIdentifier":"arn:arc:resource/0000000000000001","blockedWindows":["Sun:23:30-Mon:00:30"],"outcomeAlarms":[{"alarmIdentifier":"errors"}]}
call 0 347400000 0 StartPracticeRun {"resourceIdentifier":"arn:arc:resource/0000000000000001","awayFrom":"az1","comment":""}
call 0 347400000 0 UpdateZonalAutoshiftConfiguration {"resourceIdentifier":"arn:arc:resource/0000000000000001","zonalAutoshiftStatus":"ENABLED"}
call 0 347400000 0 StartAutoshift {"awayFrom":"az1"}
call 0 347400000 0 EndAutoshift {"awayFrom":"az1"}
call 0 347400000 0 GetManagedResource {"resourceIdentifier":"arn:arc:resource/0000000000000001"}
call 0 347400000 0 ListZonalShifts
----
slot 0 token 1 200 {"resourceIdentifier":"arn:arc:resource/0000000000000001"}
slot 1 token 2 200 {}
slot 2 token 3 200 {"awayFrom":"az1","comment":"","expiryTime":349200000,"practiceRunOutcome":"PENDING","resourceIdentifier":"arn:arc:resource/0000000000000001","startTime":347400000,"status":"ACTIVE","zonalShiftId":"00000000-0000-0000-0000-000000000001"}
slot 3 token 4 200 {"resourceIdentifier":"arn:arc:resource/0000000000000001","zonalAutoshiftStatus":"ENABLED"}
slot 4 token 5 200 {}
slot 5 token 6 200 {}
slot 6 token 7 200 {"appliedShift":null,"availabilityZones":["az1","az2"],"name":"lb","resourceIdentifier":"arn:arc:resource/0000000000000001","zonalAutoshiftStatus":"ENABLED"}
slot 7 token 8 200 {"items":[{"awayFrom":"az1","comment":"","expiryTime":349200000,"practiceRunOutcome":"INTERRUPTED","resourceIdentifier":"arn:arc:resource/0000000000000001","startTime":347400000,"status":"CANCELED","zonalShiftId":"00000000-0000-0000-0000-000000000001"}]}

== an alarm that is set green doesn't bring the run back
call 0 0 0 RegisterManagedResource {"name":"lb","availabilityZones":["az1","az2"]}
call 0 0 0 CreatePracticeRunConfiguration {"resourceIdentifier":"arn:arc:resource/0000000000000001","blockedWindows":["Sun:23:30-Mon:00:30"],"outcomeAlarms":[{"alarmIdentifier":"errors"}]}
call 0 347400000 0 StartPracticeRun {"resourceIdentifier":"arn:arc:resource/0000000000000001","awayFrom":"az1","comment":""}
call 0 347400000 0 SetAlarmState {"alarmIdentifier":"errors","state":"ALARM"}
call 0 347400000 0 SetAlarmState {"alarmIdentifier":"errors","state":"OK"}
call 0 347400000 0 GetManagedResource {"resourceIdentifier":"arn:arc:resource/0000000000000001"}
call 0 347400000 0 ListZonalShifts
call 0 347400000 0 StartPracticeRun {"resourceIdentifier":"arn:arc:resource/0000000000000001","awayFrom":"az1","comment":""}
call 0 347400000 0 ListZonalShifts
----
slot 0 token 1 200 {"resourceIdentifier":"arn:arc:resource/0000000000000001"}
slot 1 token 2 200 {}
slot 2 token 3 200 {"awayFrom":"az1","comment":"","expiryTime":349200000,"practiceRunOutcome":"PENDING","resourceIdentifier":"arn:arc:resource/0000000000000001","startTime":347400000,"status":"ACTIVE","zonalShiftId":"00000000-0000-0000-0000-000000000001"}
slot 3 token 4 200 {}
slot 4 token 5 200 {}
slot 5 token 6 200 {"appliedShift":null,"availabilityZones":["az1","az2"],"name":"lb","resourceIdentifier":"arn:arc:resource/0000000000000001","zonalAutoshiftStatus":"DISABLED"}
slot 6 token 7 200 {"items":[{"awayFrom":"az1","comment":"","expiryTime":349200000,"practiceRunOutcome":"FAILED","resourceIdentifier":"arn:arc:resource/0000000000000001","startTime":347400000,"status":"CANCELED","zonalShiftId":"00000000-0000-0000-0000-000000000001"}]}
slot 7 token 8 200 {"awayFrom":"az1","comment":"","expiryTime":349200000,"practiceRunOutcome":"PENDING","resourceIdentifier":"arn:arc:resource/0000000000000001","startTime":347400000,"status":"ACTIVE","zonalShiftId":"00000000-0000-0000-0000-000000000002"}
slot 8 token 9 200 {"items":[{"awayFrom":"az1","comment":"","expiryTime":349200000,"practiceRunOutcome":"FAILED","resourceIdentifier":"arn:arc:resource/0000000000000001","startTime":347400000,"status":"CANCELED","zonalShiftId":"00000000-0000-0000-0000-000000000001"},{"awayFrom":"az1","comment":"","expiryTime":349200000,"practiceRunOutcome":"PENDING","resourceIdentifier":"arn:arc:resource/0000000000000001","startTime":347400000,"status":"ACTIVE","zonalShiftId":"00000000-0000-0000-0000-000000000002"}]}

== an alarm that is set green fails no run
call 0 0 0 RegisterManagedResource {"name":"lb","availabilityZones":["az1","az2"]}
call 0 0 0 CreatePracticeRunConfiguration {"resourceIdentifier":"arn:arc:resource/0000000000000001","blockedWindows":["Sun:23:30-Mon:00:30"],"outcomeAlarms":[{"alarmIdentifier":"errors"}]}
call 0 347400000 0 StartPracticeRun {"resourceIdentifier":"arn:arc:resource/0000000000000001","awayFrom":"az1","comment":""}
call 0 347400000 0 SetAlarmState {"alarmIdentifier":"errors","state":"OK"}
call 0 347400000 0 ListZonalShifts
----
slot 0 token 1 200 {"resourceIdentifier":"arn:arc:resource/0000000000000001"}
slot 1 token 2 200 {}
slot 2 token 3 200 {"awayFrom":"az1","comment":"","expiryTime":349200000,"practiceRunOutcome":"PENDING","resourceIdentifier":"arn:arc:resource/0000000000000001","startTime":347400000,"status":"ACTIVE","zonalShiftId":"00000000-0000-0000-0000-000000000001"}
slot 3 token 4 200 {}
slot 4 token 5 200 {"items":[{"awayFrom":"az1","comment":"","expiryTime":349200000,"practiceRunOutcome":"PENDING","resourceIdentifier":"arn:arc:resource/0000000000000001","startTime":347400000,"status":"ACTIVE","zonalShiftId":"00000000-0000-0000-0000-000000000001"}]}

== a red blocking alarm fails no run
call 0 0 0 RegisterManagedResource {"name":"lb","availabilityZones":["az1","az2"]}
call 0 0 0 CreatePracticeRunConfiguration {"resourceIdentifier":"arn:arc:resource/0000000000000001","blockingAlarms":[{"alarmIdentifier":"deploy"}],"outcomeAlarms":[{"alarmIdentifier":"errors"}]}
call 0 0 0 StartPracticeRun {"resourceIdentifier":"arn:arc:resource/0000000000000001","awayFrom":"az1","comment":""}
call 0 0 0 SetAlarmState {"alarmIdentifier":"deploy","state":"ALARM"}
call 0 1799999 0 ListZonalShifts
call 0 1800000 0 ListZonalShifts
----
slot 0 token 1 200 {"resourceIdentifier":"arn:arc:resource/0000000000000001"}
slot 1 token 2 200 {}
slot 2 token 3 200 {"awayFrom":"az1","comment":"","expiryTime":1800000,"practiceRunOutcome":"PENDING","resourceIdentifier":"arn:arc:resource/0000000000000001","startTime":0,"status":"ACTIVE","zonalShiftId":"00000000-0000-0000-0000-000000000001"}
slot 3 token 4 200 {}
slot 4 token 5 200 {"items":[{"awayFrom":"az1","comment":"","expiryTime":1800000,"practiceRunOutcome":"PENDING","resourceIdentifier":"arn:arc:resource/0000000000000001","startTime":0,"status":"ACTIVE","zonalShiftId":"00000000-0000-0000-0000-000000000001"}]}
slot 5 token 6 200 {"items":[{"awayFrom":"az1","comment":"","expiryTime":1800000,"practiceRunOutcome":"SUCCEEDED","resourceIdentifier":"arn:arc:resource/0000000000000001","startTime":0,"status":"EXPIRED","zonalShiftId":"00000000-0000-0000-0000-000000000001"}]}

== an alarm that a configuration doesn't name fails no run
call 0 0 0 RegisterManagedResource {"name":"lb","availabilityZones":["az1","az2"]}
call 0 0 0 CreatePracticeRunConfiguration {"resourceIdentifier":"arn:arc:resource/0000000000000001","blockedWindows":["Sun:23:30-Mon:00:30"],"outcomeAlarms":[{"alarmIdentifier":"errors"}]}
call 0 347400000 0 StartPracticeRun {"resourceIdentifier":"arn:arc:resource/0000000000000001","awayFrom":"az1","comment":""}
call 0 347400000 0 SetAlarmState {"alarmIdentifier":"slow","state":"ALARM"}
call 0 347400000 0 ListZonalShifts
----
slot 0 token 1 200 {"resourceIdentifier":"arn:arc:resource/0000000000000001"}
slot 1 token 2 200 {}
slot 2 token 3 200 {"awayFrom":"az1","comment":"","expiryTime":349200000,"practiceRunOutcome":"PENDING","resourceIdentifier":"arn:arc:resource/0000000000000001","startTime":347400000,"status":"ACTIVE","zonalShiftId":"00000000-0000-0000-0000-000000000001"}
slot 3 token 4 200 {}
slot 4 token 5 200 {"items":[{"awayFrom":"az1","comment":"","expiryTime":349200000,"practiceRunOutcome":"PENDING","resourceIdentifier":"arn:arc:resource/0000000000000001","startTime":347400000,"status":"ACTIVE","zonalShiftId":"00000000-0000-0000-0000-000000000001"}]}

== each of four outcome alarms fails a run
call 0 0 0 RegisterManagedResource {"name":"lb","availabilityZones":["az1","az2"]}
call 0 0 0 CreatePracticeRunConfiguration {"resourceIdentifier":"arn:arc:resource/0000000000000001","outcomeAlarms":[{"alarmIdentifier":"a"},{"alarmIdentifier":"b"},{"alarmIdentifier":"c"},{"alarmIdentifier":"d"}]}
call 0 0 0 StartPracticeRun {"resourceIdentifier":"arn:arc:resource/0000000000000001","awayFrom":"az1","comment":""}
call 0 0 0 SetAlarmState {"alarmIdentifier":"a","state":"ALARM"}
call 0 0 0 SetAlarmState {"alarmIdentifier":"a","state":"OK"}
call 0 0 0 StartPracticeRun {"resourceIdentifier":"arn:arc:resource/0000000000000001","awayFrom":"az1","comment":""}
call 0 0 0 SetAlarmState {"alarmIdentifier":"b","state":"ALARM"}
call 0 0 0 SetAlarmState {"alarmIdentifier":"b","state":"OK"}
call 0 0 0 StartPracticeRun {"resourceIdentifier":"arn:arc:resource/0000000000000001","awayFrom":"az1","comment":""}
call 0 0 0 SetAlarmState {"alarmIdentifier":"c","state":"ALARM"}
call 0 0 0 SetAlarmState {"alarmIdentifier":"c","state":"OK"}
call 0 0 0 StartPracticeRun {"resourceIdentifier":"arn:arc:resource/0000000000000001","awayFrom":"az1","comment":""}
call 0 0 0 SetAlarmState {"alarmIdentifier":"d","state":"ALARM"}
call 0 0 0 SetAlarmState {"alarmIdentifier":"d","state":"OK"}
call 0 0 0 ListZonalShifts
----
slot 0 token 1 200 {"resourceIdentifier":"arn:arc:resource/0000000000000001"}
slot 1 token 2 200 {}
slot 2 token 3 200 {"awayFrom":"az1","comment":"","expiryTime":1800000,"practiceRunOutcome":"PENDING","resourceIdentifier":"arn:arc:resource/0000000000000001","startTime":0,"status":"ACTIVE","zonalShiftId":"00000000-0000-0000-0000-000000000001"}
slot 3 token 4 200 {}
slot 4 token 5 200 {}
slot 5 token 6 200 {"awayFrom":"az1","comment":"","expiryTime":1800000,"practiceRunOutcome":"PENDING","resourceIdentifier":"arn:arc:resource/0000000000000001","startTime":0,"status":"ACTIVE","zonalShiftId":"00000000-0000-0000-0000-000000000002"}
slot 6 token 7 200 {}
slot 7 token 8 200 {}
slot 8 token 9 200 {"awayFrom":"az1","comment":"","expiryTime":1800000,"practiceRunOutcome":"PENDING","resourceIdentifier":"arn:arc:resource/0000000000000001","startTime":0,"status":"ACTIVE","zonalShiftId":"00000000-0000-0000-0000-000000000003"}
slot 9 token 10 200 {}
slot 10 token 11 200 {}
slot 11 token 12 200 {"awayFrom":"az1","comment":"","expiryTime":1800000,"practiceRunOutcome":"PENDING","resourceIdentifier":"arn:arc:resource/0000000000000001","startTime":0,"status":"ACTIVE","zonalShiftId":"00000000-0000-0000-0000-000000000004"}
slot 12 token 13 200 {}
slot 13 token 14 200 {}
slot 14 token 15 200 {"items":[{"awayFrom":"az1","comment":"","expiryTime":1800000,"practiceRunOutcome":"FAILED","resourceIdentifier":"arn:arc:resource/0000000000000001","startTime":0,"status":"CANCELED","zonalShiftId":"00000000-0000-0000-0000-000000000001"},{"awayFrom":"az1","comment":"","expiryTime":1800000,"practiceRunOutcome":"FAILED","resourceIdentifier":"arn:arc:resource/0000000000000001","startTime":0,"status":"CANCELED","zonalShiftId":"00000000-0000-0000-0000-000000000002"},{"awayFrom":"az1","comment":"","expiryTime":1800000,"practiceRunOutcome":"FAILED","resourceIdentifier":"arn:arc:resource/0000000000000001","startTime":0,"status":"CANCELED","zonalShiftId":"00000000-0000-0000-0000-000000000003"},{"awayFrom":"az1","comment":"","expiryTime":1800000,"practiceRunOutcome":"FAILED","resourceIdentifier":"arn:arc:resource/0000000000000001","startTime":0,"status":"CANCELED","zonalShiftId":"00000000-0000-0000-0000-000000000004"}]}

== a run keeps the alarms that it started with
call 0 0 0 RegisterManagedResource {"name":"lb","availabilityZones":["az1","az2"]}
call 0 0 0 CreatePracticeRunConfiguration {"resourceIdentifier":"arn:arc:resource/0000000000000001","blockedWindows":["Sun:23:30-Mon:00:30"],"outcomeAlarms":[{"alarmIdentifier":"errors"}]}
call 0 347400000 0 StartPracticeRun {"resourceIdentifier":"arn:arc:resource/0000000000000001","awayFrom":"az1","comment":""}
call 0 347400000 0 UpdatePracticeRunConfiguration {"resourceIdentifier":"arn:arc:resource/0000000000000001","outcomeAlarms":[{"alarmIdentifier":"slow"}]}
call 0 349199999 0 SetAlarmState {"alarmIdentifier":"slow","state":"ALARM"}
call 0 349199999 0 ListZonalShifts
call 0 349199999 0 SetAlarmState {"alarmIdentifier":"errors","state":"ALARM"}
call 0 349199999 0 ListZonalShifts
----
slot 0 token 1 200 {"resourceIdentifier":"arn:arc:resource/0000000000000001"}
slot 1 token 2 200 {}
slot 2 token 3 200 {"awayFrom":"az1","comment":"","expiryTime":349200000,"practiceRunOutcome":"PENDING","resourceIdentifier":"arn:arc:resource/0000000000000001","startTime":347400000,"status":"ACTIVE","zonalShiftId":"00000000-0000-0000-0000-000000000001"}
slot 3 token 4 200 {}
slot 4 token 5 200 {}
slot 5 token 6 200 {"items":[{"awayFrom":"az1","comment":"","expiryTime":349200000,"practiceRunOutcome":"PENDING","resourceIdentifier":"arn:arc:resource/0000000000000001","startTime":347400000,"status":"ACTIVE","zonalShiftId":"00000000-0000-0000-0000-000000000001"}]}
slot 6 token 7 200 {}
slot 7 token 8 200 {"items":[{"awayFrom":"az1","comment":"","expiryTime":349200000,"practiceRunOutcome":"FAILED","resourceIdentifier":"arn:arc:resource/0000000000000001","startTime":347400000,"status":"CANCELED","zonalShiftId":"00000000-0000-0000-0000-000000000001"}]}

== the next run has the alarms of the changed configuration
call 0 0 0 RegisterManagedResource {"name":"lb","availabilityZones":["az1","az2"]}
call 0 0 0 CreatePracticeRunConfiguration {"resourceIdentifier":"arn:arc:resource/0000000000000001","blockedWindows":["Sun:23:30-Mon:00:30"],"outcomeAlarms":[{"alarmIdentifier":"errors"}]}
call 0 347400000 0 StartPracticeRun {"resourceIdentifier":"arn:arc:resource/0000000000000001","awayFrom":"az1","comment":""}
call 0 347400000 0 UpdatePracticeRunConfiguration {"resourceIdentifier":"arn:arc:resource/0000000000000001","outcomeAlarms":[{"alarmIdentifier":"slow"}]}
call 0 347400000 0 CancelPracticeRun {"zonalShiftId":"00000000-0000-0000-0000-000000000001"}
call 0 347400000 0 StartPracticeRun {"resourceIdentifier":"arn:arc:resource/0000000000000001","awayFrom":"az1","comment":""}
call 0 347400000 0 SetAlarmState {"alarmIdentifier":"errors","state":"ALARM"}
call 0 347400000 0 ListZonalShifts {"status":"ACTIVE"}
call 0 347400000 0 SetAlarmState {"alarmIdentifier":"slow","state":"ALARM"}
call 0 347400000 0 ListZonalShifts
----
slot 0 token 1 200 {"resourceIdentifier":"arn:arc:resource/0000000000000001"}
slot 1 token 2 200 {}
slot 2 token 3 200 {"awayFrom":"az1","comment":"","expiryTime":349200000,"practiceRunOutcome":"PENDING","resourceIdentifier":"arn:arc:resource/0000000000000001","startTime":347400000,"status":"ACTIVE","zonalShiftId":"00000000-0000-0000-0000-000000000001"}
slot 3 token 4 200 {}
slot 4 token 5 200 {"awayFrom":"az1","comment":"","expiryTime":349200000,"practiceRunOutcome":"INTERRUPTED","resourceIdentifier":"arn:arc:resource/0000000000000001","startTime":347400000,"status":"CANCELED","zonalShiftId":"00000000-0000-0000-0000-000000000001"}
slot 5 token 6 200 {"awayFrom":"az1","comment":"","expiryTime":349200000,"practiceRunOutcome":"PENDING","resourceIdentifier":"arn:arc:resource/0000000000000001","startTime":347400000,"status":"ACTIVE","zonalShiftId":"00000000-0000-0000-0000-000000000002"}
slot 6 token 7 200 {}
slot 7 token 8 200 {"items":[{"awayFrom":"az1","comment":"","expiryTime":349200000,"practiceRunOutcome":"PENDING","resourceIdentifier":"arn:arc:resource/0000000000000001","startTime":347400000,"status":"ACTIVE","zonalShiftId":"00000000-0000-0000-0000-000000000002"}]}
slot 8 token 9 200 {}
slot 9 token 10 200 {"items":[{"awayFrom":"az1","comment":"","expiryTime":349200000,"practiceRunOutcome":"INTERRUPTED","resourceIdentifier":"arn:arc:resource/0000000000000001","startTime":347400000,"status":"CANCELED","zonalShiftId":"00000000-0000-0000-0000-000000000001"},{"awayFrom":"az1","comment":"","expiryTime":349200000,"practiceRunOutcome":"FAILED","resourceIdentifier":"arn:arc:resource/0000000000000001","startTime":347400000,"status":"CANCELED","zonalShiftId":"00000000-0000-0000-0000-000000000002"}]}

== an alarm that was red before fails no run that was started without it
call 0 0 0 RegisterManagedResource {"name":"lb","availabilityZones":["az1","az2"]}
call 0 0 0 CreatePracticeRunConfiguration {"resourceIdentifier":"arn:arc:resource/0000000000000001","outcomeAlarms":[{"alarmIdentifier":"slow"}]}
call 0 0 0 SetAlarmState {"alarmIdentifier":"errors","state":"ALARM"}
call 0 0 0 StartPracticeRun {"resourceIdentifier":"arn:arc:resource/0000000000000001","awayFrom":"az1","comment":""}
call 0 0 0 UpdatePracticeRunConfiguration {"resourceIdentifier":"arn:arc:resource/0000000000000001","outcomeAlarms":[{"alarmIdentifier":"errors"}]}
call 0 0 0 SetAlarmState {"alarmIdentifier":"errors","state":"ALARM"}
call 0 0 0 ListZonalShifts
----
slot 0 token 1 200 {"resourceIdentifier":"arn:arc:resource/0000000000000001"}
slot 1 token 2 200 {}
slot 2 token 3 200 {}
slot 3 token 4 200 {"awayFrom":"az1","comment":"","expiryTime":1800000,"practiceRunOutcome":"PENDING","resourceIdentifier":"arn:arc:resource/0000000000000001","startTime":0,"status":"ACTIVE","zonalShiftId":"00000000-0000-0000-0000-000000000001"}
slot 4 token 5 200 {}
slot 5 token 6 200 {}
slot 6 token 7 200 {"items":[{"awayFrom":"az1","comment":"","expiryTime":1800000,"practiceRunOutcome":"PENDING","resourceIdentifier":"arn:arc:resource/0000000000000001","startTime":0,"status":"ACTIVE","zonalShiftId":"00000000-0000-0000-0000-000000000001"}]}

== an alarm that was red and is green again fails a run when it turns red
call 0 0 0 RegisterManagedResource {"name":"lb","availabilityZones":["az1","az2"]}
call 0 0 0 CreatePracticeRunConfiguration {"resourceIdentifier":"arn:arc:resource/0000000000000001","outcomeAlarms":[{"alarmIdentifier":"errors"}]}
call 0 0 0 SetAlarmState {"alarmIdentifier":"errors","state":"ALARM"}
call 0 0 0 StartPracticeRun {"resourceIdentifier":"arn:arc:resource/0000000000000001","awayFrom":"az1","comment":""}
call 0 0 0 SetAlarmState {"alarmIdentifier":"errors","state":"OK"}
call 0 0 0 StartPracticeRun {"resourceIdentifier":"arn:arc:resource/0000000000000001","awayFrom":"az1","comment":""}
call 0 0 0 SetAlarmState {"alarmIdentifier":"errors","state":"ALARM"}
call 0 0 0 ListZonalShifts
----
slot 0 token 1 200 {"resourceIdentifier":"arn:arc:resource/0000000000000001"}
slot 1 token 2 200 {}
slot 2 token 3 200 {}
slot 3 token 4 409 {"Cause":"OutcomeAlarm","Reason":"Blocked","__type":"ConflictException"}
slot 4 token 5 200 {}
slot 5 token 6 200 {"awayFrom":"az1","comment":"","expiryTime":1800000,"practiceRunOutcome":"PENDING","resourceIdentifier":"arn:arc:resource/0000000000000001","startTime":0,"status":"ACTIVE","zonalShiftId":"00000000-0000-0000-0000-000000000001"}
slot 6 token 7 200 {}
slot 7 token 8 200 {"items":[{"awayFrom":"az1","comment":"","expiryTime":1800000,"practiceRunOutcome":"FAILED","resourceIdentifier":"arn:arc:resource/0000000000000001","startTime":0,"status":"CANCELED","zonalShiftId":"00000000-0000-0000-0000-000000000001"}]}

== an alarm fails the runs of all resources that have it
call 0 0 0 RegisterManagedResource {"name":"lb","availabilityZones":["az1","az2"]}
call 0 0 0 RegisterManagedResource {"name":"api","availabilityZones":["az1","az2"]}
call 0 0 0 RegisterManagedResource {"name":"web","availabilityZones":["az1","az2"]}
call 0 0 0 CreatePracticeRunConfiguration {"resourceIdentifier":"arn:arc:resource/0000000000000001","outcomeAlarms":[{"alarmIdentifier":"errors"}]}
call 0 0 0 CreatePracticeRunConfiguration {"resourceIdentifier":"arn:arc:resource/0000000000000002","outcomeAlarms":[{"alarmIdentifier":"slow"}]}
call 0 0 0 CreatePracticeRunConfiguration {"resourceIdentifier":"arn:arc:resource/0000000000000003","outcomeAlarms":[{"alarmIdentifier":"slow"},{"alarmIdentifier":"errors"}]}
call 0 0 0 StartPracticeRun {"resourceIdentifier":"arn:arc:resource/0000000000000001","awayFrom":"az1","comment":""}
call 0 0 0 StartPracticeRun {"resourceIdentifier":"arn:arc:resource/0000000000000002","awayFrom":"az1","comment":""}
call 0 0 0 StartPracticeRun {"resourceIdentifier":"arn:arc:resource/0000000000000003","awayFrom":"az1","comment":""}
call 0 1 0 SetAlarmState {"alarmIdentifier":"errors","state":"ALARM"}
call 0 1 0 ListZonalShifts
----
slot 0 token 1 200 {"resourceIdentifier":"arn:arc:resource/0000000000000001"}
slot 1 token 2 200 {"resourceIdentifier":"arn:arc:resource/0000000000000002"}
slot 2 token 3 200 {"resourceIdentifier":"arn:arc:resource/0000000000000003"}
slot 3 token 4 200 {}
slot 4 token 5 200 {}
slot 5 token 6 200 {}
slot 6 token 7 200 {"awayFrom":"az1","comment":"","expiryTime":1800000,"practiceRunOutcome":"PENDING","resourceIdentifier":"arn:arc:resource/0000000000000001","startTime":0,"status":"ACTIVE","zonalShiftId":"00000000-0000-0000-0000-000000000001"}
slot 7 token 8 200 {"awayFrom":"az1","comment":"","expiryTime":1800000,"practiceRunOutcome":"PENDING","resourceIdentifier":"arn:arc:resource/0000000000000002","startTime":0,"status":"ACTIVE","zonalShiftId":"00000000-0000-0000-0000-000000000002"}
slot 8 token 9 200 {"awayFrom":"az1","comment":"","expiryTime":1800000,"practiceRunOutcome":"PENDING","resourceIdentifier":"arn:arc:resource/0000000000000003","startTime":0,"status":"ACTIVE","zonalShiftId":"00000000-0000-0000-0000-000000000003"}
slot 9 token 10 200 {}
slot 10 token 11 200 {"items":[{"awayFrom":"az1","comment":"","expiryTime":1800000,"practiceRunOutcome":"FAILED","resourceIdentifier":"arn:arc:resource/0000000000000001","startTime":0,"status":"CANCELED","zonalShiftId":"00000000-0000-0000-0000-000000000001"},{"awayFrom":"az1","comment":"","expiryTime":1800000,"practiceRunOutcome":"PENDING","resourceIdentifier":"arn:arc:resource/0000000000000002","startTime":0,"status":"ACTIVE","zonalShiftId":"00000000-0000-0000-0000-000000000002"},{"awayFrom":"az1","comment":"","expiryTime":1800000,"practiceRunOutcome":"FAILED","resourceIdentifier":"arn:arc:resource/0000000000000003","startTime":0,"status":"CANCELED","zonalShiftId":"00000000-0000-0000-0000-000000000003"}]}

== a deleted configuration leaves a run's outcome
call 0 0 0 RegisterManagedResource {"name":"lb","availabilityZones":["az1","az2"]}
call 0 0 0 CreatePracticeRunConfiguration {"resourceIdentifier":"arn:arc:resource/0000000000000001","blockedWindows":["Sun:23:30-Mon:00:30"],"outcomeAlarms":[{"alarmIdentifier":"errors"}]}
call 0 347400000 0 StartPracticeRun {"resourceIdentifier":"arn:arc:resource/0000000000000001","awayFrom":"az1","comment":""}
call 0 347400000 0 SetAlarmState {"alarmIdentifier":"errors","state":"ALARM"}
call 0 347400000 0 DeletePracticeRunConfiguration {"resourceIdentifier":"arn:arc:resource/0000000000000001"}
call 0 347400000 0 ListZonalShifts
----
slot 0 token 1 200 {"resourceIdentifier":"arn:arc:resource/0000000000000001"}
slot 1 token 2 200 {}
slot 2 token 3 200 {"awayFrom":"az1","comment":"","expiryTime":349200000,"practiceRunOutcome":"PENDING","resourceIdentifier":"arn:arc:resource/0000000000000001","startTime":347400000,"status":"ACTIVE","zonalShiftId":"00000000-0000-0000-0000-000000000001"}
slot 3 token 4 200 {}
slot 4 token 5 200 {}
slot 5 token 6 200 {"items":[{"awayFrom":"az1","comment":"","expiryTime":349200000,"practiceRunOutcome":"FAILED","resourceIdentifier":"arn:arc:resource/0000000000000001","startTime":347400000,"status":"CANCELED","zonalShiftId":"00000000-0000-0000-0000-000000000001"}]}

== a failed run is applied no more, and a shift may follow
call 0 0 0 RegisterManagedResource {"name":"lb","availabilityZones":["az1","az2"]}
call 0 0 0 CreatePracticeRunConfiguration {"resourceIdentifier":"arn:arc:resource/0000000000000001","blockedWindows":["Sun:23:30-Mon:00:30"],"outcomeAlarms":[{"alarmIdentifier":"errors"}]}
call 0 347400000 0 StartPracticeRun {"resourceIdentifier":"arn:arc:resource/0000000000000001","awayFrom":"az1","comment":""}
call 0 347400000 0 SetAlarmState {"alarmIdentifier":"errors","state":"ALARM"}
call 0 347400000 0 GetManagedResource {"resourceIdentifier":"arn:arc:resource/0000000000000001"}
call 0 347400000 0 StartZonalShift {"resourceIdentifier":"arn:arc:resource/0000000000000001","awayFrom":"az1","expiresIn":"1m","comment":""}
call 0 347400000 0 GetManagedResource {"resourceIdentifier":"arn:arc:resource/0000000000000001"}
----
slot 0 token 1 200 {"resourceIdentifier":"arn:arc:resource/0000000000000001"}
slot 1 token 2 200 {}
slot 2 token 3 200 {"awayFrom":"az1","comment":"","expiryTime":349200000,"practiceRunOutcome":"PENDING","resourceIdentifier":"arn:arc:resource/0000000000000001","startTime":347400000,"status":"ACTIVE","zonalShiftId":"00000000-0000-0000-0000-000000000001"}
slot 3 token 4 200 {}
slot 4 token 5 200 {"appliedShift":null,"availabilityZones":["az1","az2"],"name":"lb","resourceIdentifier":"arn:arc:resource/0000000000000001","zonalAutoshiftStatus":"DISABLED"}
slot 5 token 6 200 {"awayFrom":"az1","comment":"","expiryTime":347460000,"resourceIdentifier":"arn:arc:resource/0000000000000001","startTime":347400000,"status":"ACTIVE","zonalShiftId":"00000000-0000-0000-0000-000000000002"}
slot 6 token 7 200 {"appliedShift":{"awayFrom":"az1","kind":"CUSTOMER"},"availabilityZones":["az1","az2"],"name":"lb","resourceIdentifier":"arn:arc:resource/0000000000000001","zonalAutoshiftStatus":"DISABLED"}

== a late call sets an event at list time
call 0 0 0 RegisterManagedResource {"name":"lb","availabilityZones":["az1","az2"]}
call 0 0 0 CreatePracticeRunConfiguration {"resourceIdentifier":"arn:arc:resource/0000000000000001","blockedWindows":["Sun:23:30-Mon:00:30"],"outcomeAlarms":[{"alarmIdentifier":"errors"}]}
call 0 347400000 0 StartPracticeRun {"resourceIdentifier":"arn:arc:resource/0000000000000001","awayFrom":"az1","comment":""}
call 0 349200000 0 GetManagedResource {"resourceIdentifier":"arn:arc:resource/0000000000000001"}
call 0 347400000 0 SetAlarmState {"alarmIdentifier":"errors","state":"ALARM"}
call 0 347400000 0 ListZonalShifts
----
slot 0 token 1 200 {"resourceIdentifier":"arn:arc:resource/0000000000000001"}
slot 1 token 2 200 {}
slot 2 token 3 200 {"awayFrom":"az1","comment":"","expiryTime":349200000,"practiceRunOutcome":"PENDING","resourceIdentifier":"arn:arc:resource/0000000000000001","startTime":347400000,"status":"ACTIVE","zonalShiftId":"00000000-0000-0000-0000-000000000001"}
slot 3 token 4 200 {"appliedShift":null,"availabilityZones":["az1","az2"],"name":"lb","resourceIdentifier":"arn:arc:resource/0000000000000001","zonalAutoshiftStatus":"DISABLED"}
slot 4 token 5 200 {}
slot 5 token 6 200 {"items":[{"awayFrom":"az1","comment":"","expiryTime":349200000,"practiceRunOutcome":"SUCCEEDED","resourceIdentifier":"arn:arc:resource/0000000000000001","startTime":347400000,"status":"EXPIRED","zonalShiftId":"00000000-0000-0000-0000-000000000001"}]}
