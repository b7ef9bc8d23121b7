# Practice runs: when they start, how long they last, and who ends them.

== a run waits for its window to end, and a shift of the customer interrupts it
call 0 0 0 RegisterManagedResource {"name":"lb","availabilityZones":["use1-az1","use1-az2"]}
call 0 0 0 CreatePracticeRunConfiguration {"resourceIdentifier":"arn:arc:resource/0000000000000001","blockedWindows":["Sun:23:30-Mon:00:30"],"outcomeAlarms":[{"alarmIdentifier":"errors"}]}
call 0 343800000 0 StartPracticeRun {"resourceIdentifier":"arn:arc:resource/0000000000000001","awayFrom":"use1-az1","comment":""}
call 0 347340000 0 StartPracticeRun {"resourceIdentifier":"arn:arc:resource/0000000000000001","awayFrom":"use1-az1","comment":""}
call 0 347400000 0 StartPracticeRun {"resourceIdentifier":"arn:arc:resource/0000000000000001","awayFrom":"use1-az1","comment":""}
call 0 347500000 0 StartZonalShift {"resourceIdentifier":"arn:arc:resource/0000000000000001","awayFrom":"use1-az1","expiresIn":"30m","comment":""}
call 0 347500000 0 ListZonalShifts
call 0 347500000 0 UpdateZonalAutoshiftConfiguration {"resourceIdentifier":"arn:arc:resource/0000000000000001","zonalAutoshiftStatus":"ENABLED"}
call 0 347500000 0 StartAutoshift {"awayFrom":"use1-az2"}
call 0 349299999 0 GetManagedResource {"resourceIdentifier":"arn:arc:resource/0000000000000001"}
call 0 349300000 0 GetManagedResource {"resourceIdentifier":"arn:arc:resource/0000000000000001"}
----
slot 0 token 1 200 {"resourceIdentifier":"arn:arc:resource/0000000000000001"}
slot 1 token 2 200 {}
slot 2 token 3 409 {"Cause":"BlockedWindow","Reason":"Blocked","__type":"ConflictException"}
slot 3 token 4 409 {"Cause":"BlockedWindow","Reason":"Blocked","__type":"ConflictException"}
slot 4 token 5 200 {"awayFrom":"use1-az1","comment":"","expiryTime":349200000,"practiceRunOutcome":"PENDING","resourceIdentifier":"arn:arc:resource/0000000000000001","startTime":347400000,"status":"ACTIVE","zonalShiftId":"00000000-0000-0000-0000-000000000001"}
slot 5 token 6 200 {"awayFrom":"use1-az1","comment":"","expiryTime":349300000,"resourceIdentifier":"arn:arc:resource/0000000000000001","startTime":347500000,"status":"ACTIVE","zonalShiftId":"00000000-0000-0000-0000-000000000002"}
slot 6 token 7 200 {"items":[{"awayFrom":"use1-az1","comment":"","expiryTime":349200000,"practiceRunOutcome":"INTERRUPTED","resourceIdentifier":"arn:arc:resource/0000000000000001","startTime":347400000,"status":"CANCELED","zonalShiftId":"00000000-0000-0000-0000-000000000001"},{"awayFrom":"use1-az1","comment":"","expiryTime":349300000,"resourceIdentifier":"arn:arc:resource/0000000000000001","startTime":347500000,"status":"ACTIVE","zonalShiftId":"00000000-0000-0000-0000-000000000002"}]}
slot 7 token 8 200 {"resourceIdentifier":"arn:arc:resource/0000000000000001","zonalAutoshiftStatus":"ENABLED"}
slot 8 token 9 200 {}
slot 9 token 10 200 {"appliedShift":{"awayFrom":"use1-az1","kind":"CUSTOMER"},"availabilityZones":["use1-az1","use1-az2"],"name":"lb","resourceIdentifier":"arn:arc:resource/0000000000000001","zonalAutoshiftStatus":"ENABLED"}
slot 10 token 11 200 {"appliedShift":{"awayFrom":"use1-az2","kind":"AUTOSHIFT"},"availabilityZones":["use1-az1","use1-az2"],"name":"lb","resourceIdentifier":"arn:arc:resource/0000000000000001","zonalAutoshiftStatus":"ENABLED"}

== a run waits for whatever is applied
call 0 0 0 RegisterManagedResource {"name":"lb","availabilityZones":["use1-az1","use1-az2"]}
call 0 0 0 StartPracticeRun {"resourceIdentifier":"arn:arc:resource/0000000000000001","awayFrom":"use1-az1","comment":""}
call 0 0 0 CreatePracticeRunConfiguration {"resourceIdentifier":"arn:arc:resource/0000000000000001","outcomeAlarms":[{"alarmIdentifier":"errors"}]}
call 0 0 0 CreatePracticeRunConfiguration {"resourceIdentifier":"arn:arc:resource/0000000000000001","outcomeAlarms":[{"alarmIdentifier":"errors"}]}
call 0 0 0 StartPracticeRun {"resourceIdentifier":"arn:arc:resource/0000000000000001","awayFrom":"use1-az3","comment":""}
call 0 0 0 StartZonalShift {"resourceIdentifier":"arn:arc:resource/0000000000000001","awayFrom":"use1-az1","expiresIn":"30m","comment":""}
call 0 1 0 StartPracticeRun {"resourceIdentifier":"arn:arc:resource/0000000000000001","awayFrom":"use1-az1","comment":""}
call 0 1799999 0 StartPracticeRun {"resourceIdentifier":"arn:arc:resource/0000000000000001","awayFrom":"use1-az1","comment":""}
call 0 1800000 0 StartPracticeRun {"resourceIdentifier":"arn:arc:resource/0000000000000001","awayFrom":"use1-az1","comment":""}
call 0 1800000 0 StartPracticeRun {"resourceIdentifier":"arn:arc:resource/0000000000000001","awayFrom":"use1-az1","comment":""}
----
slot 0 token 1 200 {"resourceIdentifier":"arn:arc:resource/0000000000000001"}
slot 1 token 2 404 {"Reason":"NotConfigured","Resource":"arn:arc:resource/0000000000000001","__type":"ResourceNotFoundException"}
slot 2 token 3 200 {}
slot 3 token 4 409 {"Reason":"Configured","Resource":"arn:arc:resource/0000000000000001","__type":"ConflictException"}
slot 4 token 5 400 {"AwayFrom":"use1-az3","Reason":"WrongZone","__type":"ValidationException"}
slot 5 token 6 200 {"awayFrom":"use1-az1","comment":"","expiryTime":1800000,"resourceIdentifier":"arn:arc:resource/0000000000000001","startTime":0,"status":"ACTIVE","zonalShiftId":"00000000-0000-0000-0000-000000000001"}
slot 6 token 7 409 {"By":"CUSTOMER","Reason":"Busy","__type":"ConflictException"}
slot 7 token 8 409 {"By":"CUSTOMER","Reason":"Busy","__type":"ConflictException"}
slot 8 token 9 200 {"awayFrom":"use1-az1","comment":"","expiryTime":3600000,"practiceRunOutcome":"PENDING","resourceIdentifier":"arn:arc:resource/0000000000000001","startTime":1800000,"status":"ACTIVE","zonalShiftId":"00000000-0000-0000-0000-000000000002"}
slot 9 token 10 409 {"By":"PRACTICE_RUN","Reason":"Busy","__type":"ConflictException"}

== a run lasts 30 minutes to the millisecond
call 0 0 0 RegisterManagedResource {"name":"lb","availabilityZones":["az1","az2"]}
call 0 0 0 CreatePracticeRunConfiguration {"resourceIdentifier":"arn:arc:resource/0000000000000001","outcomeAlarms":[{"alarmIdentifier":"errors"}]}
call 0 1000 0 StartPracticeRun {"resourceIdentifier":"arn:arc:resource/0000000000000001","awayFrom":"az1","comment":""}
call 0 1000 0 ListZonalShifts
call 0 1800999 0 ListZonalShifts
call 0 1801000 0 ListZonalShifts
----
slot 0 token 1 200 {"resourceIdentifier":"arn:arc:resource/0000000000000001"}
slot 1 token 2 200 {}
slot 2 token 3 200 {"awayFrom":"az1","comment":"","expiryTime":1801000,"practiceRunOutcome":"PENDING","resourceIdentifier":"arn:arc:resource/0000000000000001","startTime":1000,"status":"ACTIVE","zonalShiftId":"00000000-0000-0000-0000-000000000001"}
slot 3 token 4 200 {"items":[{"awayFrom":"az1","comment":"","expiryTime":1801000,"practiceRunOutcome":"PENDING","resourceIdentifier":"arn:arc:resource/0000000000000001","startTime":1000,"status":"ACTIVE","zonalShiftId":"00000000-0000-0000-0000-000000000001"}]}
slot 4 token 5 200 {"items":[{"awayFrom":"az1","comment":"","expiryTime":1801000,"practiceRunOutcome":"PENDING","resourceIdentifier":"arn:arc:resource/0000000000000001","startTime":1000,"status":"ACTIVE","zonalShiftId":"00000000-0000-0000-0000-000000000001"}]}
slot 5 token 6 200 {"items":[{"awayFrom":"az1","comment":"","expiryTime":1801000,"practiceRunOutcome":"SUCCEEDED","resourceIdentifier":"arn:arc:resource/0000000000000001","startTime":1000,"status":"EXPIRED","zonalShiftId":"00000000-0000-0000-0000-000000000001"}]}

== a pending run is what is applied
call 0 0 0 RegisterManagedResource {"name":"lb","availabilityZones":["az1","az2"]}
call 0 0 0 CreatePracticeRunConfiguration {"resourceIdentifier":"arn:arc:resource/0000000000000001","outcomeAlarms":[{"alarmIdentifier":"errors"}]}
call 0 0 0 StartPracticeRun {"resourceIdentifier":"arn:arc:resource/0000000000000001","awayFrom":"az2","comment":""}
call 0 0 0 GetManagedResource {"resourceIdentifier":"arn:arc:resource/0000000000000001"}
call 0 1799999 0 GetManagedResource {"resourceIdentifier":"arn:arc:resource/0000000000000001"}
call 0 1800000 0 GetManagedResource {"resourceIdentifier":"arn:arc:resource/0000000000000001"}
----
slot 0 token 1 200 {"resourceIdentifier":"arn:arc:resource/0000000000000001"}
slot 1 token 2 200 {}
slot 2 token 3 200 {"awayFrom":"az2","comment":"","expiryTime":1800000,"practiceRunOutcome":"PENDING","resourceIdentifier":"arn:arc:resource/0000000000000001","startTime":0,"status":"ACTIVE","zonalShiftId":"00000000-0000-0000-0000-000000000001"}
slot 3 token 4 200 {"appliedShift":{"awayFrom":"az2","kind":"PRACTICE_RUN"},"availabilityZones":["az1","az2"],"name":"lb","resourceIdentifier":"arn:arc:resource/0000000000000001","zonalAutoshiftStatus":"DISABLED"}
slot 4 token 5 200 {"appliedShift":{"awayFrom":"az2","kind":"PRACTICE_RUN"},"availabilityZones":["az1","az2"],"name":"lb","resourceIdentifier":"arn:arc:resource/0000000000000001","zonalAutoshiftStatus":"DISABLED"}
slot 5 token 6 200 {"appliedShift":null,"availabilityZones":["az1","az2"],"name":"lb","resourceIdentifier":"arn:arc:resource/0000000000000001","zonalAutoshiftStatus":"DISABLED"}

== the next run starts where the first one ends
call 0 0 0 RegisterManagedResource {"name":"lb","availabilityZones":["az1","az2"]}
call 0 0 0 CreatePracticeRunConfiguration {"resourceIdentifier":"arn:arc:resource/0000000000000001","outcomeAlarms":[{"alarmIdentifier":"errors"}]}
call 0 0 0 StartPracticeRun {"resourceIdentifier":"arn:arc:resource/0000000000000001","awayFrom":"az1","comment":""}
call 0 1799999 0 StartPracticeRun {"resourceIdentifier":"arn:arc:resource/0000000000000001","awayFrom":"az1","comment":""}
call 0 1800000 0 StartPracticeRun {"resourceIdentifier":"arn:arc:resource/0000000000000001","awayFrom":"az1","comment":""}
call 0 1800000 0 ListZonalShifts
----
slot 0 token 1 200 {"resourceIdentifier":"arn:arc:resource/0000000000000001"}
slot 1 token 2 200 {}
slot 2 token 3 200 {"awayFrom":"az1","comment":"","expiryTime":1800000,"practiceRunOutcome":"PENDING","resourceIdentifier":"arn:arc:resource/0000000000000001","startTime":0,"status":"ACTIVE","zonalShiftId":"00000000-0000-0000-0000-000000000001"}
slot 3 token 4 409 {"By":"PRACTICE_RUN","Reason":"Busy","__type":"ConflictException"}
slot 4 token 5 200 {"awayFrom":"az1","comment":"","expiryTime":3600000,"practiceRunOutcome":"PENDING","resourceIdentifier":"arn:arc:resource/0000000000000001","startTime":1800000,"status":"ACTIVE","zonalShiftId":"00000000-0000-0000-0000-000000000002"}
slot 5 token 6 200 {"items":[{"awayFrom":"az1","comment":"","expiryTime":1800000,"practiceRunOutcome":"SUCCEEDED","resourceIdentifier":"arn:arc:resource/0000000000000001","startTime":0,"status":"EXPIRED","zonalShiftId":"00000000-0000-0000-0000-000000000001"},{"awayFrom":"az1","comment":"","expiryTime":3600000,"practiceRunOutcome":"PENDING","resourceIdentifier":"arn:arc:resource/0000000000000001","startTime":1800000,"status":"ACTIVE","zonalShiftId":"00000000-0000-0000-0000-000000000002"}]}

== an unknown resource comes first
call 0 0 0 StartPracticeRun {"resourceIdentifier":"arn:arc:resource/0000000000000001","awayFrom":"az1","comment":""}
call 0 0 0 RegisterManagedResource {"name":"lb","availabilityZones":["az1","az2"]}
call 0 0 0 CreatePracticeRunConfiguration {"resourceIdentifier":"arn:arc:resource/0000000000000001","outcomeAlarms":[{"alarmIdentifier":"errors"}]}
call 0 0 0 StartPracticeRun {"resourceIdentifier":"arn:arc:resource/0000000000000002","awayFrom":"az3","comment":""}
----
slot 0 token 1 404 {"Reason":"NotFound","Resource":"arn:arc:resource/0000000000000001","__type":"ResourceNotFoundException"}
slot 1 token 2 200 {"resourceIdentifier":"arn:arc:resource/0000000000000001"}
slot 2 token 3 200 {}
slot 3 token 4 404 {"Reason":"NotFound","Resource":"arn:arc:resource/0000000000000002","__type":"ResourceNotFoundException"}

== a missing configuration comes before a wrong zone
call 0 0 0 RegisterManagedResource {"name":"lb","availabilityZones":["az1","az2"]}
call 0 0 0 StartPracticeRun {"resourceIdentifier":"arn:arc:resource/0000000000000001","awayFrom":"az3","comment":""}
call 0 0 0 CreatePracticeRunConfiguration {"resourceIdentifier":"arn:arc:resource/0000000000000001","outcomeAlarms":[{"alarmIdentifier":"errors"}]}
call 0 0 0 StartPracticeRun {"resourceIdentifier":"arn:arc:resource/0000000000000001","awayFrom":"az3","comment":""}
----
slot 0 token 1 200 {"resourceIdentifier":"arn:arc:resource/0000000000000001"}
slot 1 token 2 404 {"Reason":"NotConfigured","Resource":"arn:arc:resource/0000000000000001","__type":"ResourceNotFoundException"}
slot 2 token 3 200 {}
slot 3 token 4 400 {"AwayFrom":"az3","Reason":"WrongZone","__type":"ValidationException"}

== a wrong zone comes before a busy resource
call 0 0 0 RegisterManagedResource {"name":"lb","availabilityZones":["az1","az2"]}
call 0 0 0 CreatePracticeRunConfiguration {"resourceIdentifier":"arn:arc:resource/0000000000000001","outcomeAlarms":[{"alarmIdentifier":"errors"}]}
call 0 0 0 StartZonalShift {"resourceIdentifier":"arn:arc:resource/0000000000000001","awayFrom":"az1","expiresIn":"1m","comment":""}
call 0 0 0 StartPracticeRun {"resourceIdentifier":"arn:arc:resource/0000000000000001","awayFrom":"az3","comment":""}
call 0 0 0 StartPracticeRun {"resourceIdentifier":"arn:arc:resource/0000000000000001","awayFrom":"az1","comment":""}
----
slot 0 token 1 200 {"resourceIdentifier":"arn:arc:resource/0000000000000001"}
slot 1 token 2 200 {}
slot 2 token 3 200 {"awayFrom":"az1","comment":"","expiryTime":60000,"resourceIdentifier":"arn:arc:resource/0000000000000001","startTime":0,"status":"ACTIVE","zonalShiftId":"00000000-0000-0000-0000-000000000001"}
slot 3 token 4 400 {"AwayFrom":"az3","Reason":"WrongZone","__type":"ValidationException"}
slot 4 token 5 409 {"By":"CUSTOMER","Reason":"Busy","__type":"ConflictException"}

== a missing configuration comes before a busy resource
call 0 0 0 RegisterManagedResource {"name":"lb","availabilityZones":["az1","az2"]}
call 0 0 0 StartZonalShift {"resourceIdentifier":"arn:arc:resource/0000000000000001","awayFrom":"az1","expiresIn":"1m","comment":""}
call 0 0 0 StartPracticeRun {"resourceIdentifier":"arn:arc:resource/0000000000000001","awayFrom":"az1","comment":""}
----
slot 0 token 1 200 {"resourceIdentifier":"arn:arc:resource/0000000000000001"}
slot 1 token 2 200 {"awayFrom":"az1","comment":"","expiryTime":60000,"resourceIdentifier":"arn:arc:resource/0000000000000001","startTime":0,"status":"ACTIVE","zonalShiftId":"00000000-0000-0000-0000-000000000001"}
slot 2 token 3 404 {"Reason":"NotConfigured","Resource":"arn:arc:resource/0000000000000001","__type":"ResourceNotFoundException"}

== a busy resource comes before a block
call 0 0 0 RegisterManagedResource {"name":"lb","availabilityZones":["az1","az2"]}
call 0 0 0 CreatePracticeRunConfiguration {"resourceIdentifier":"arn:arc:resource/0000000000000001","blockedDates":["1970-01-01"],"outcomeAlarms":[{"alarmIdentifier":"errors"}]}
call 0 0 0 StartZonalShift {"resourceIdentifier":"arn:arc:resource/0000000000000001","awayFrom":"az1","expiresIn":"1m","comment":""}
call 0 0 0 StartPracticeRun {"resourceIdentifier":"arn:arc:resource/0000000000000001","awayFrom":"az1","comment":""}
call 0 60000 0 StartPracticeRun {"resourceIdentifier":"arn:arc:resource/0000000000000001","awayFrom":"az1","comment":""}
----
slot 0 token 1 200 {"resourceIdentifier":"arn:arc:resource/0000000000000001"}
slot 1 token 2 200 {}
slot 2 token 3 200 {"awayFrom":"az1","comment":"","expiryTime":60000,"resourceIdentifier":"arn:arc:resource/0000000000000001","startTime":0,"status":"ACTIVE","zonalShiftId":"00000000-0000-0000-0000-000000000001"}
slot 3 token 4 409 {"By":"CUSTOMER","Reason":"Busy","__type":"ConflictException"}
slot 4 token 5 409 {"Cause":"BlockedDate","Reason":"Blocked","__type":"ConflictException"}

== a resource is busy by what is applied alone
call 0 0 0 RegisterManagedResource {"name":"lb","availabilityZones":["az1","az2"]}
call 0 0 0 CreatePracticeRunConfiguration {"resourceIdentifier":"arn:arc:resource/0000000000000001","outcomeAlarms":[{"alarmIdentifier":"errors"}]}
call 0 0 0 UpdateZonalAutoshiftConfiguration {"resourceIdentifier":"arn:arc:resource/0000000000000001","zonalAutoshiftStatus":"ENABLED"}
call 0 0 0 StartAutoshift {"awayFrom":"az2"}
call 0 0 0 StartPracticeRun {"resourceIdentifier":"arn:arc:resource/0000000000000001","awayFrom":"az1","comment":""}
call 0 0 0 StartZonalShift {"resourceIdentifier":"arn:arc:resource/0000000000000001","awayFrom":"az1","expiresIn":"1m","comment":""}
call 0 0 0 StartPracticeRun {"resourceIdentifier":"arn:arc:resource/0000000000000001","awayFrom":"az1","comment":""}
call 0 60000 0 StartPracticeRun {"resourceIdentifier":"arn:arc:resource/0000000000000001","awayFrom":"az1","comment":""}
call 0 60000 0 EndAutoshift {"awayFrom":"az2"}
call 0 60000 0 StartPracticeRun {"resourceIdentifier":"arn:arc:resource/0000000000000001","awayFrom":"az1","comment":""}
call 0 60000 0 StartPracticeRun {"resourceIdentifier":"arn:arc:resource/0000000000000001","awayFrom":"az1","comment":""}
----
slot 0 token 1 200 {"resourceIdentifier":"arn:arc:resource/0000000000000001"}
slot 1 token 2 200 {}
slot 2 token 3 200 {"resourceIdentifier":"arn:arc:resource/0000000000000001","zonalAutoshiftStatus":"ENABLED"}
slot 3 token 4 200 {}
slot 4 token 5 409 {"By":"AUTOSHIFT","Reason":"Busy","__type":"ConflictException"}
slot 5 token 6 200 {"awayFrom":"az1","comment":"","expiryTime":60000,"resourceIdentifier":"arn:arc:resource/0000000000000001","startTime":0,"status":"ACTIVE","zonalShiftId":"00000000-0000-0000-0000-000000000001"}
slot 6 token 7 409 {"By":"CUSTOMER","Reason":"Busy","__type":"ConflictException"}
slot 7 token 8 409 {"By":"AUTOSHIFT","Reason":"Busy","__type":"ConflictException"}
slot 8 token 9 200 {}
slot 9 token 10 200 {"awayFrom":"az1","comment":"","expiryTime":1860000,"practiceRunOutcome":"PENDING","resourceIdentifier":"arn:arc:resource/0000000000000001","startTime":60000,"status":"ACTIVE","zonalShiftId":"00000000-0000-0000-0000-000000000002"}
slot 10 token 11 409 {"By":"PRACTICE_RUN","Reason":"Busy","__type":"ConflictException"}

== an autoshift that isn't enabled, or of a zone that the resource lacks, lets a run start
call 0 0 0 RegisterManagedResource {"name":"lb","availabilityZones":["az1","az2"]}
call 0 0 0 CreatePracticeRunConfiguration {"resourceIdentifier":"arn:arc:resource/0000000000000001","outcomeAlarms":[{"alarmIdentifier":"errors"}]}
call 0 0 0 StartAutoshift {"awayFrom":"az1"}
call 0 0 0 StartPracticeRun {"resourceIdentifier":"arn:arc:resource/0000000000000001","awayFrom":"az1","comment":""}
call 0 0 0 CancelPracticeRun {"zonalShiftId":"00000000-0000-0000-0000-000000000001"}
call 0 0 0 EndAutoshift {"awayFrom":"az1"}
call 0 0 0 UpdateZonalAutoshiftConfiguration {"resourceIdentifier":"arn:arc:resource/0000000000000001","zonalAutoshiftStatus":"ENABLED"}
call 0 0 0 StartAutoshift {"awayFrom":"az3"}
call 0 0 0 StartPracticeRun {"resourceIdentifier":"arn:arc:resource/0000000000000001","awayFrom":"az1","comment":""}
----
slot 0 token 1 200 {"resourceIdentifier":"arn:arc:resource/0000000000000001"}
slot 1 token 2 200 {}
slot 2 token 3 200 {}
slot 3 token 4 200 {"awayFrom":"az1","comment":"","expiryTime":1800000,"practiceRunOutcome":"PENDING","resourceIdentifier":"arn:arc:resource/0000000000000001","startTime":0,"status":"ACTIVE","zonalShiftId":"00000000-0000-0000-0000-000000000001"}
slot 4 token 5 200 {"awayFrom":"az1","comment":"","expiryTime":1800000,"practiceRunOutcome":"INTERRUPTED","resourceIdentifier":"arn:arc:resource/0000000000000001","startTime":0,"status":"CANCELED","zonalShiftId":"00000000-0000-0000-0000-000000000001"}
slot 5 token 6 200 {}
slot 6 token 7 200 {"resourceIdentifier":"arn:arc:resource/0000000000000001","zonalAutoshiftStatus":"ENABLED"}
slot 7 token 8 200 {}
slot 8 token 9 200 {"awayFrom":"az1","comment":"","expiryTime":1800000,"practiceRunOutcome":"PENDING","resourceIdentifier":"arn:arc:resource/0000000000000001","startTime":0,"status":"ACTIVE","zonalShiftId":"00000000-0000-0000-0000-000000000002"}

== a refused start draws no identifier
call 0 0 0 RegisterManagedResource {"name":"lb","availabilityZones":["az1","az2"]}
call 0 0 0 CreatePracticeRunConfiguration {"resourceIdentifier":"arn:arc:resource/0000000000000001","blockedDates":["1970-01-01"],"outcomeAlarms":[{"alarmIdentifier":"errors"}]}
call 0 0 0 StartPracticeRun {"resourceIdentifier":"arn:arc:resource/0000000000000001","awayFrom":"az1","comment":""}
call 0 86400000 0 StartPracticeRun {"resourceIdentifier":"arn:arc:resource/0000000000000001","awayFrom":"az1","comment":""}
----
slot 0 token 1 200 {"resourceIdentifier":"arn:arc:resource/0000000000000001"}
slot 1 token 2 200 {}
slot 2 token 3 409 {"Cause":"BlockedDate","Reason":"Blocked","__type":"ConflictException"}
slot 3 token 4 200 {"awayFrom":"az1","comment":"","expiryTime":88200000,"practiceRunOutcome":"PENDING","resourceIdentifier":"arn:arc:resource/0000000000000001","startTime":86400000,"status":"ACTIVE","zonalShiftId":"00000000-0000-0000-0000-000000000001"}

== a cancel interrupts a run, once
call 0 0 0 RegisterManagedResource {"name":"lb","availabilityZones":["az1","az2"]}
call 0 0 0 CreatePracticeRunConfiguration {"resourceIdentifier":"arn:arc:resource/0000000000000001","outcomeAlarms":[{"alarmIdentifier":"errors"}]}
call 0 0 0 StartPracticeRun {"resourceIdentifier":"arn:arc:resource/0000000000000001","awayFrom":"az1","comment":""}
call 0 5 0 CancelPracticeRun {"zonalShiftId":"00000000-0000-0000-0000-000000000001"}
call 0 5 0 CancelPracticeRun {"zonalShiftId":"00000000-0000-0000-0000-000000000001"}
call 0 5 0 GetManagedResource {"resourceIdentifier":"arn:arc:resource/0000000000000001"}
call 0 1800000 0 CancelPracticeRun {"zonalShiftId":"00000000-0000-0000-0000-000000000001"}
----
slot 0 token 1 200 {"resourceIdentifier":"arn:arc:resource/0000000000000001"}
slot 1 token 2 200 {}
slot 2 token 3 200 {"awayFrom":"az1","comment":"","expiryTime":1800000,"practiceRunOutcome":"PENDING","resourceIdentifier":"arn:arc:resource/0000000000000001","startTime":0,"status":"ACTIVE","zonalShiftId":"00000000-0000-0000-0000-000000000001"}
slot 3 token 4 200 {"awayFrom":"az1","comment":"","expiryTime":1800000,"practiceRunOutcome":"INTERRUPTED","resourceIdentifier":"arn:arc:resource/0000000000000001","startTime":0,"status":"CANCELED","zonalShiftId":"00000000-0000-0000-0000-000000000001"}
slot 4 token 5 409 {"Reason":"NotActive","Status":"CANCELED","__type":"ConflictException"}
slot 5 token 6 200 {"appliedShift":null,"availabilityZones":["az1","az2"],"name":"lb","resourceIdentifier":"arn:arc:resource/0000000000000001","zonalAutoshiftStatus":"DISABLED"}
slot 6 token 7 409 {"Reason":"NotActive","Status":"CANCELED","__type":"ConflictException"}

== a cancel is in time at the last millisecond
call 0 0 0 RegisterManagedResource {"name":"lb","availabilityZones":["az1","az2"]}
call 0 0 0 CreatePracticeRunConfiguration {"resourceIdentifier":"arn:arc:resource/0000000000000001","outcomeAlarms":[{"alarmIdentifier":"errors"}]}
call 0 0 0 StartPracticeRun {"resourceIdentifier":"arn:arc:resource/0000000000000001","awayFrom":"az1","comment":""}
call 0 1799999 0 CancelPracticeRun {"zonalShiftId":"00000000-0000-0000-0000-000000000001"}
call 0 1800000 0 ListZonalShifts
----
slot 0 token 1 200 {"resourceIdentifier":"arn:arc:resource/0000000000000001"}
slot 1 token 2 200 {}
slot 2 token 3 200 {"awayFrom":"az1","comment":"","expiryTime":1800000,"practiceRunOutcome":"PENDING","resourceIdentifier":"arn:arc:resource/0000000000000001","startTime":0,"status":"ACTIVE","zonalShiftId":"00000000-0000-0000-0000-000000000001"}
slot 3 token 4 200 {"awayFrom":"az1","comment":"","expiryTime":1800000,"practiceRunOutcome":"INTERRUPTED","resourceIdentifier":"arn:arc:resource/0000000000000001","startTime":0,"status":"CANCELED","zonalShiftId":"00000000-0000-0000-0000-000000000001"}
slot 4 token 5 200 {"items":[{"awayFrom":"az1","comment":"","expiryTime":1800000,"practiceRunOutcome":"INTERRUPTED","resourceIdentifier":"arn:arc:resource/0000000000000001","startTime":0,"status":"CANCELED","zonalShiftId":"00000000-0000-0000-0000-000000000001"}]}

== a cancel after 30 minutes finds a run that is over
call 0 0 0 RegisterManagedResource {"name":"lb","availabilityZones":["az1","az2"]}
call 0 0 0 CreatePracticeRunConfiguration {"resourceIdentifier":"arn:arc:resource/0000000000000001","outcomeAlarms":[{"alarmIdentifier":"errors"}]}
call 0 0 0 StartPracticeRun {"resourceIdentifier":"arn:arc:resource/0000000000000001","awayFrom":"az1","comment":""}
call 0 1800000 0 CancelPracticeRun {"zonalShiftId":"00000000-0000-0000-0000-000000000001"}
call 0 1800000 0 ListZonalShifts
----
slot 0 token 1 200 {"resourceIdentifier":"arn:arc:resource/0000000000000001"}
slot 1 token 2 200 {}
slot 2 token 3 200 {"awayFrom":"az1","comment":"","expiryTime":1800000,"practiceRunOutcome":"PENDING","resourceIdentifier":"arn:arc:resource/0000000000000001","startTime":0,"status":"ACTIVE","zonalShiftId":"00000000-0000-0000-0000-000000000001"}
slot 3 token 4 409 {"Reason":"NotActive","Status":"EXPIRED","__type":"ConflictException"}
slot 4 token 5 200 {"items":[{"awayFrom":"az1","comment":"","expiryTime":1800000,"practiceRunOutcome":"SUCCEEDED","resourceIdentifier":"arn:arc:resource/0000000000000001","startTime":0,"status":"EXPIRED","zonalShiftId":"00000000-0000-0000-0000-000000000001"}]}

== a failed run is cancelled no more
call 0 0 0 RegisterManagedResource {"name":"lb","availabilityZones":["az1","az2"]}
call 0 0 0 CreatePracticeRunConfiguration {"resourceIdentifier":"arn:arc:resource/0000000000000001","outcomeAlarms":[{"alarmIdentifier":"errors"}]}
call 0 0 0 StartPracticeRun {"resourceIdentifier":"arn:arc:resource/0000000000000001","awayFrom":"az1","comment":""}
call 0 0 0 SetAlarmState {"alarmIdentifier":"errors","state":"ALARM"}
call 0 0 0 CancelPracticeRun {"zonalShiftId":"00000000-0000-0000-0000-000000000001"}
call 0 0 0 ListZonalShifts
----
slot 0 token 1 200 {"resourceIdentifier":"arn:arc:resource/0000000000000001"}
slot 1 token 2 200 {}
slot 2 token 3 200 {"awayFrom":"az1","comment":"","expiryTime":1800000,"practiceRunOutcome":"PENDING","resourceIdentifier":"arn:arc:resource/0000000000000001","startTime":0,"status":"ACTIVE","zonalShiftId":"00000000-0000-0000-0000-000000000001"}
slot 3 token 4 200 {}
slot 4 token 5 409 {"Reason":"NotActive","Status":"CANCELED","__type":"ConflictException"}
slot 5 token 6 200 {"items":[{"awayFrom":"az1","comment":"","expiryTime":1800000,"practiceRunOutcome":"FAILED","resourceIdentifier":"arn:arc:resource/0000000000000001","startTime":0,"status":"CANCELED","zonalShiftId":"00000000-0000-0000-0000-000000000001"}]}

== a shift of the customer is no run
call 0 0 0 RegisterManagedResource {"name":"lb","availabilityZones":["az1","az2"]}
call 0 0 0 StartZonalShift {"resourceIdentifier":"arn:arc:resource/0000000000000001","awayFrom":"az1","expiresIn":"1m","comment":""}
call 0 0 0 CancelPracticeRun {"zonalShiftId":"00000000-0000-0000-0000-000000000001"}
call 0 0 0 CancelPracticeRun {"zonalShiftId":"00000000-0000-0000-0000-000000000002"}
call 0 0 0 ListZonalShifts
----
slot 0 token 1 200 {"resourceIdentifier":"arn:arc:resource/0000000000000001"}
slot 1 token 2 200 {"awayFrom":"az1","comment":"","expiryTime":60000,"resourceIdentifier":"arn:arc:resource/0000000000000001","startTime":0,"status":"ACTIVE","zonalShiftId":"00000000-0000-0000-0000-000000000001"}
slot 2 token 3 404 {"Reason":"NotFound","Resource":"00000000-0000-0000-0000-000000000001","__type":"ResourceNotFoundException"}
slot 3 token 4 404 {"Reason":"NotFound","Resource":"00000000-0000-0000-0000-000000000002","__type":"ResourceNotFoundException"}
slot 4 token 5 200 {"items":[{"awayFrom":"az1","comment":"","expiryTime":60000,"resourceIdentifier":"arn:arc:resource/0000000000000001","startTime":0,"status":"ACTIVE","zonalShiftId":"00000000-0000-0000-0000-000000000001"}]}

== runs of two resources go on side by side
call 0 0 0 RegisterManagedResource {"name":"lb","availabilityZones":["az1","az2"]}
call 0 0 0 RegisterManagedResource {"name":"api","availabilityZones":["az1","az2"]}
call 0 0 0 CreatePracticeRunConfiguration {"resourceIdentifier":"arn:arc:resource/0000000000000001","outcomeAlarms":[{"alarmIdentifier":"errors"}]}
call 0 0 0 CreatePracticeRunConfiguration {"resourceIdentifier":"arn:arc:resource/0000000000000002","outcomeAlarms":[{"alarmIdentifier":"errors"}]}
call 0 0 0 StartPracticeRun {"resourceIdentifier":"arn:arc:resource/0000000000000001","awayFrom":"az1","comment":""}
call 0 1 0 StartPracticeRun {"resourceIdentifier":"arn:arc:resource/0000000000000002","awayFrom":"az1","comment":""}
call 0 2 0 CancelPracticeRun {"zonalShiftId":"00000000-0000-0000-0000-000000000001"}
call 0 1800000 0 ListZonalShifts
----
slot 0 token 1 200 {"resourceIdentifier":"arn:arc:resource/0000000000000001"}
slot 1 token 2 200 {"resourceIdentifier":"arn:arc:resource/0000000000000002"}
slot 2 token 3 200 {}
slot 3 token 4 200 {}
slot 4 token 5 200 {"awayFrom":"az1","comment":"","expiryTime":1800000,"practiceRunOutcome":"PENDING","resourceIdentifier":"arn:arc:resource/0000000000000001","startTime":0,"status":"ACTIVE","zonalShiftId":"00000000-0000-0000-0000-000000000001"}
slot 5 token 6 200 {"awayFrom":"az1","comment":"","expiryTime":1800001,"practiceRunOutcome":"PENDING","resourceIdentifier":"arn:arc:resource/0000000000000002","startTime":1,"status":"ACTIVE","zonalShiftId":"00000000-0000-0000-0000-000000000002"}
slot 6 token 7 200 {"awayFrom":"az1","comment":"","expiryTime":1800000,"practiceRunOutcome":"INTERRUPTED","resourceIdentifier":"arn:arc:resource/0000000000000001","startTime":0,"status":"CANCELED","zonalShiftId":"00000000-0000-0000-0000-000000000001"}
slot 7 token 8 200 {"items":[{"awayFrom":"az1","comment":"","expiryTime":1800000,"practiceRunOutcome":"INTERRUPTED","resourceIdentifier":"arn:arc:resource/0000000000000001","startTime":0,"status":"CANCELED","zonalShiftId":"00000000-0000-0000-0000-000000000001"},{"awayFrom":"az1","comment":"","expiryTime":1800001,"practiceRunOutcome":"PENDING","resourceIdentifier":"arn:arc:resource/0000000000000002","startTime":1,"status":"ACTIVE","zonalShiftId":"00000000-0000-0000-0000-000000000002"}]}

== a run keeps its comment
call 0 0 0 RegisterManagedResource {"name":"lb","availabilityZones":["az1","az2"]}
call 0 0 0 CreatePracticeRunConfiguration {"resourceIdentifier":"arn:arc:resource/0000000000000001","outcomeAlarms":[{"alarmIdentifier":"errors"}]}
call 0 0 0 StartPracticeRun {"resourceIdentifier":"arn:arc:resource/0000000000000001","awayFrom":"az1","comment":"weekly"}
call 0 1800000 0 ListZonalShifts
----
slot 0 token 1 200 {"resourceIdentifier":"arn:arc:resource/0000000000000001"}
slot 1 token 2 200 {}
slot 2 token 3 200 {"awayFrom":"az1","comment":"weekly","expiryTime":1800000,"practiceRunOutcome":"PENDING","resourceIdentifier":"arn:arc:resource/0000000000000001","startTime":0,"status":"ACTIVE","zonalShiftId":"00000000-0000-0000-0000-000000000001"}
slot 3 token 4 200 {"items":[{"awayFrom":"az1","comment":"weekly","expiryTime":1800000,"practiceRunOutcome":"SUCCEEDED","resourceIdentifier":"arn:arc:resource/0000000000000001","startTime":0,"status":"EXPIRED","zonalShiftId":"00000000-0000-0000-0000-000000000001"}]}

== a run starts at the last moment of all
call 0 0 0 RegisterManagedResource {"name":"lb","availabilityZones":["az1","az2"]}
call 0 0 0 CreatePracticeRunConfiguration {"resourceIdentifier":"arn:arc:resource/0000000000000001","outcomeAlarms":[{"alarmIdentifier":"errors"}]}
call 0 253402300799999 0 StartPracticeRun {"resourceIdentifier":"arn:arc:resource/0000000000000001","awayFrom":"az1","comment":""}
call 0 253402300799999 0 GetManagedResource {"resourceIdentifier":"arn:arc:resource/0000000000000001"}
----
slot 0 token 1 200 {"resourceIdentifier":"arn:arc:resource/0000000000000001"}
slot 1 token 2 200 {}
slot 2 token 3 200 {"awayFrom":"az1","comment":"","expiryTime":253402302599999,"practiceRunOutcome":"PENDING","resourceIdentifier":"arn:arc:resource/0000000000000001","startTime":253402300799999,"status":"ACTIVE","zonalShiftId":"00000000-0000-0000-0000-000000000001"}
slot 3 token 4 200 {"appliedShift":{"awayFrom":"az1","kind":"PRACTICE_RUN"},"availabilityZones":["az1","az2"],"name":"lb","resourceIdentifier":"arn:arc:resource/0000000000000001","zonalAutoshiftStatus":"DISABLED"}
