# Which shift is applied: the customer's, then the first autoshift, then the practice run; and what interrupts a run.

== nothing is applied where nothing has started
call 0 0 0 RegisterManagedResource {"name":"lb","availabilityZones":["az1","az2","az3"]}
call 0 0 0 CreatePracticeRunConfiguration {"resourceIdentifier":"arn:arc:resource/0000000000000001","outcomeAlarms":[{"alarmIdentifier":"errors"}]}
call 0 0 0 GetManagedResource {"resourceIdentifier":"arn:arc:resource/0000000000000001"}
call 0 0 0 StartAutoshift {"awayFrom":"other"}
call 0 0 0 StartAutoshift {"awayFrom":"az3"}
call 0 0 0 StartAutoshift {"awayFrom":"az2"}
call 0 0 0 GetManagedResource {"resourceIdentifier":"arn:arc:resource/0000000000000001"}
----
slot 0 token 1 200 {"resourceIdentifier":"arn:arc:resource/0000000000000001"}
slot 1 token 2 200 {}
slot 2 token 3 200 {"appliedShift":null,"availabilityZones":["az1","az2","az3"],"name":"lb","resourceIdentifier":"arn:arc:resource/0000000000000001","zonalAutoshiftStatus":"DISABLED"}
slot 3 token 4 200 {}
slot 4 token 5 200 {}
slot 5 token 6 200 {}
slot 6 token 7 200 {"appliedShift":null,"availabilityZones":["az1","az2","az3"],"name":"lb","resourceIdentifier":"arn:arc:resource/0000000000000001","zonalAutoshiftStatus":"DISABLED"}

== the customer's shift comes before an autoshift, which follows at its end
call 0 0 0 RegisterManagedResource {"name":"lb","availabilityZones":["az1","az2","az3"]}
call 0 0 0 CreatePracticeRunConfiguration {"resourceIdentifier":"arn:arc:resource/0000000000000001","outcomeAlarms":[{"alarmIdentifier":"errors"}]}
call 0 0 0 UpdateZonalAutoshiftConfiguration {"resourceIdentifier":"arn:arc:resource/0000000000000001","zonalAutoshiftStatus":"ENABLED"}
call 0 0 0 StartAutoshift {"awayFrom":"other"}
call 0 0 0 StartAutoshift {"awayFrom":"az3"}
call 0 0 0 StartAutoshift {"awayFrom":"az2"}
call 0 0 0 StartZonalShift {"resourceIdentifier":"arn:arc:resource/0000000000000001","awayFrom":"az1","expiresIn":"1m","comment":""}
call 0 0 0 GetManagedResource {"resourceIdentifier":"arn:arc:resource/0000000000000001"}
call 0 59999 0 GetManagedResource {"resourceIdentifier":"arn:arc:resource/0000000000000001"}
call 0 60000 0 GetManagedResource {"resourceIdentifier":"arn:arc:resource/0000000000000001"}
----
slot 0 token 1 200 {"resourceIdentifier":"arn:arc:resource/0000000000000001"}
slot 1 token 2 200 {}
slot 2 token 3 200 {"resourceIdentifier":"arn:arc:resource/0000000000000001","zonalAutoshiftStatus":"ENABLED"}
slot 3 token 4 200 {}
slot 4 token 5 200 {}
slot 5 token 6 200 {}
slot 6 token 7 200 {"awayFrom":"az1","comment":"","expiryTime":60000,"resourceIdentifier":"arn:arc:resource/0000000000000001","startTime":0,"status":"ACTIVE","zonalShiftId":"00000000-0000-0000-0000-000000000001"}
slot 7 token 8 200 {"appliedShift":{"awayFrom":"az1","kind":"CUSTOMER"},"availabilityZones":["az1","az2","az3"],"name":"lb","resourceIdentifier":"arn:arc:resource/0000000000000001","zonalAutoshiftStatus":"ENABLED"}
slot 8 token 9 200 {"appliedShift":{"awayFrom":"az1","kind":"CUSTOMER"},"availabilityZones":["az1","az2","az3"],"name":"lb","resourceIdentifier":"arn:arc:resource/0000000000000001","zonalAutoshiftStatus":"ENABLED"}
slot 9 token 10 200 {"appliedShift":{"awayFrom":"az3","kind":"AUTOSHIFT"},"availabilityZones":["az1","az2","az3"],"name":"lb","resourceIdentifier":"arn:arc:resource/0000000000000001","zonalAutoshiftStatus":"ENABLED"}

== a cancelled shift leaves the autoshift at once
call 0 0 0 RegisterManagedResource {"name":"lb","availabilityZones":["az1","az2","az3"]}
call 0 0 0 CreatePracticeRunConfiguration {"resourceIdentifier":"arn:arc:resource/0000000000000001","outcomeAlarms":[{"alarmIdentifier":"errors"}]}
call 0 0 0 UpdateZonalAutoshiftConfiguration {"resourceIdentifier":"arn:arc:resource/0000000000000001","zonalAutoshiftStatus":"ENABLED"}
call 0 0 0 StartAutoshift {"awayFrom":"other"}
call 0 0 0 StartAutoshift {"awayFrom":"az3"}
call 0 0 0 StartAutoshift {"awayFrom":"az2"}
call 0 0 0 StartZonalShift {"resourceIdentifier":"arn:arc:resource/0000000000000001","awayFrom":"az1","expiresIn":"1m","comment":""}
call 0 1 0 CancelZonalShift {"zonalShiftId":"00000000-0000-0000-0000-000000000001"}
call 0 1 0 GetManagedResource {"resourceIdentifier":"arn:arc:resource/0000000000000001"}
----
slot 0 token 1 200 {"resourceIdentifier":"arn:arc:resource/0000000000000001"}
slot 1 token 2 200 {}
slot 2 token 3 200 {"resourceIdentifier":"arn:arc:resource/0000000000000001","zonalAutoshiftStatus":"ENABLED"}
slot 3 token 4 200 {}
slot 4 token 5 200 {}
slot 5 token 6 200 {}
slot 6 token 7 200 {"awayFrom":"az1","comment":"","expiryTime":60000,"resourceIdentifier":"arn:arc:resource/0000000000000001","startTime":0,"status":"ACTIVE","zonalShiftId":"00000000-0000-0000-0000-000000000001"}
slot 7 token 8 200 {"awayFrom":"az1","comment":"","expiryTime":60000,"resourceIdentifier":"arn:arc:resource/0000000000000001","startTime":0,"status":"CANCELED","zonalShiftId":"00000000-0000-0000-0000-000000000001"}
slot 8 token 9 200 {"appliedShift":{"awayFrom":"az3","kind":"AUTOSHIFT"},"availabilityZones":["az1","az2","az3"],"name":"lb","resourceIdentifier":"arn:arc:resource/0000000000000001","zonalAutoshiftStatus":"ENABLED"}

== the customer's shift stands alone where autoshift isn't enabled
call 0 0 0 RegisterManagedResource {"name":"lb","availabilityZones":["az1","az2","az3"]}
call 0 0 0 CreatePracticeRunConfiguration {"resourceIdentifier":"arn:arc:resource/0000000000000001","outcomeAlarms":[{"alarmIdentifier":"errors"}]}
call 0 0 0 StartAutoshift {"awayFrom":"other"}
call 0 0 0 StartAutoshift {"awayFrom":"az3"}
call 0 0 0 StartAutoshift {"awayFrom":"az2"}
call 0 0 0 StartZonalShift {"resourceIdentifier":"arn:arc:resource/0000000000000001","awayFrom":"az1","expiresIn":"1m","comment":""}
call 0 59999 0 GetManagedResource {"resourceIdentifier":"arn:arc:resource/0000000000000001"}
call 0 60000 0 GetManagedResource {"resourceIdentifier":"arn:arc:resource/0000000000000001"}
----
slot 0 token 1 200 {"resourceIdentifier":"arn:arc:resource/0000000000000001"}
slot 1 token 2 200 {}
slot 2 token 3 200 {}
slot 3 token 4 200 {}
slot 4 token 5 200 {}
slot 5 token 6 200 {"awayFrom":"az1","comment":"","expiryTime":60000,"resourceIdentifier":"arn:arc:resource/0000000000000001","startTime":0,"status":"ACTIVE","zonalShiftId":"00000000-0000-0000-0000-000000000001"}
slot 6 token 7 200 {"appliedShift":{"awayFrom":"az1","kind":"CUSTOMER"},"availabilityZones":["az1","az2","az3"],"name":"lb","resourceIdentifier":"arn:arc:resource/0000000000000001","zonalAutoshiftStatus":"DISABLED"}
slot 7 token 8 200 {"appliedShift":null,"availabilityZones":["az1","az2","az3"],"name":"lb","resourceIdentifier":"arn:arc:resource/0000000000000001","zonalAutoshiftStatus":"DISABLED"}

== an autoshift that starts under a customer's shift waits for its end
call 0 0 0 RegisterManagedResource {"name":"lb","availabilityZones":["az1","az2","az3"]}
call 0 0 0 CreatePracticeRunConfiguration {"resourceIdentifier":"arn:arc:resource/0000000000000001","outcomeAlarms":[{"alarmIdentifier":"errors"}]}
call 0 0 0 UpdateZonalAutoshiftConfiguration {"resourceIdentifier":"arn:arc:resource/0000000000000001","zonalAutoshiftStatus":"ENABLED"}
call 0 0 0 StartZonalShift {"resourceIdentifier":"arn:arc:resource/0000000000000001","awayFrom":"az1","expiresIn":"1m","comment":""}
call 0 0 0 StartAutoshift {"awayFrom":"az3"}
call 0 59999 0 GetManagedResource {"resourceIdentifier":"arn:arc:resource/0000000000000001"}
call 0 60000 0 GetManagedResource {"resourceIdentifier":"arn:arc:resource/0000000000000001"}
----
slot 0 token 1 200 {"resourceIdentifier":"arn:arc:resource/0000000000000001"}
slot 1 token 2 200 {}
slot 2 token 3 200 {"resourceIdentifier":"arn:arc:resource/0000000000000001","zonalAutoshiftStatus":"ENABLED"}
slot 3 token 4 200 {"awayFrom":"az1","comment":"","expiryTime":60000,"resourceIdentifier":"arn:arc:resource/0000000000000001","startTime":0,"status":"ACTIVE","zonalShiftId":"00000000-0000-0000-0000-000000000001"}
slot 4 token 5 200 {}
slot 5 token 6 200 {"appliedShift":{"awayFrom":"az1","kind":"CUSTOMER"},"availabilityZones":["az1","az2","az3"],"name":"lb","resourceIdentifier":"arn:arc:resource/0000000000000001","zonalAutoshiftStatus":"ENABLED"}
slot 6 token 7 200 {"appliedShift":{"awayFrom":"az3","kind":"AUTOSHIFT"},"availabilityZones":["az1","az2","az3"],"name":"lb","resourceIdentifier":"arn:arc:resource/0000000000000001","zonalAutoshiftStatus":"ENABLED"}

== the autoshift that started first is applied, without zones that the resource lacks
call 0 0 0 RegisterManagedResource {"name":"lb","availabilityZones":["az1","az2","az3"]}
call 0 0 0 CreatePracticeRunConfiguration {"resourceIdentifier":"arn:arc:resource/0000000000000001","outcomeAlarms":[{"alarmIdentifier":"errors"}]}
call 0 0 0 UpdateZonalAutoshiftConfiguration {"resourceIdentifier":"arn:arc:resource/0000000000000001","zonalAutoshiftStatus":"ENABLED"}
call 0 0 0 StartAutoshift {"awayFrom":"other"}
call 0 0 0 StartAutoshift {"awayFrom":"az3"}
call 0 0 0 StartAutoshift {"awayFrom":"az2"}
call 0 0 0 GetManagedResource {"resourceIdentifier":"arn:arc:resource/0000000000000001"}
call 0 0 0 EndAutoshift {"awayFrom":"az3"}
call 0 0 0 GetManagedResource {"resourceIdentifier":"arn:arc:resource/0000000000000001"}
call 0 0 0 EndAutoshift {"awayFrom":"az2"}
call 0 0 0 GetManagedResource {"resourceIdentifier":"arn:arc:resource/0000000000000001"}
----
slot 0 token 1 200 {"resourceIdentifier":"arn:arc:resource/0000000000000001"}
slot 1 token 2 200 {}
slot 2 token 3 200 {"resourceIdentifier":"arn:arc:resource/0000000000000001","zonalAutoshiftStatus":"ENABLED"}
slot 3 token 4 200 {}
slot 4 token 5 200 {}
slot 5 token 6 200 {}
slot 6 token 7 200 {"appliedShift":{"awayFrom":"az3","kind":"AUTOSHIFT"},"availabilityZones":["az1","az2","az3"],"name":"lb","resourceIdentifier":"arn:arc:resource/0000000000000001","zonalAutoshiftStatus":"ENABLED"}
slot 7 token 8 200 {}
slot 8 token 9 200 {"appliedShift":{"awayFrom":"az2","kind":"AUTOSHIFT"},"availabilityZones":["az1","az2","az3"],"name":"lb","resourceIdentifier":"arn:arc:resource/0000000000000001","zonalAutoshiftStatus":"ENABLED"}
slot 9 token 10 200 {}
slot 10 token 11 200 {"appliedShift":null,"availabilityZones":["az1","az2","az3"],"name":"lb","resourceIdentifier":"arn:arc:resource/0000000000000001","zonalAutoshiftStatus":"ENABLED"}

== an autoshift that starts again is the last
call 0 0 0 RegisterManagedResource {"name":"lb","availabilityZones":["az1","az2","az3"]}
call 0 0 0 CreatePracticeRunConfiguration {"resourceIdentifier":"arn:arc:resource/0000000000000001","outcomeAlarms":[{"alarmIdentifier":"errors"}]}
call 0 0 0 UpdateZonalAutoshiftConfiguration {"resourceIdentifier":"arn:arc:resource/0000000000000001","zonalAutoshiftStatus":"ENABLED"}
call 0 0 0 StartAutoshift {"awayFrom":"other"}
call 0 0 0 StartAutoshift {"awayFrom":"az3"}
call 0 0 0 StartAutoshift {"awayFrom":"az2"}
call 0 0 0 EndAutoshift {"awayFrom":"az3"}
call 0 0 0 StartAutoshift {"awayFrom":"az3"}
call 0 0 0 GetManagedResource {"resourceIdentifier":"arn:arc:resource/0000000000000001"}
call 0 0 0 EndAutoshift {"awayFrom":"az2"}
call 0 0 0 GetManagedResource {"resourceIdentifier":"arn:arc:resource/0000000000000001"}
----
slot 0 token 1 200 {"resourceIdentifier":"arn:arc:resource/0000000000000001"}
slot 1 token 2 200 {}
slot 2 token 3 200 {"resourceIdentifier":"arn:arc:resource/0000000000000001","zonalAutoshiftStatus":"ENABLED"}
slot 3 token 4 200 {}
slot 4 token 5 200 {}
slot 5 token 6 200 {}
slot 6 token 7 200 {}
slot 7 token 8 200 {}
slot 8 token 9 200 {"appliedShift":{"awayFrom":"az2","kind":"AUTOSHIFT"},"availabilityZones":["az1","az2","az3"],"name":"lb","resourceIdentifier":"arn:arc:resource/0000000000000001","zonalAutoshiftStatus":"ENABLED"}
slot 9 token 10 200 {}
slot 10 token 11 200 {"appliedShift":{"awayFrom":"az3","kind":"AUTOSHIFT"},"availabilityZones":["az1","az2","az3"],"name":"lb","resourceIdentifier":"arn:arc:resource/0000000000000001","zonalAutoshiftStatus":"ENABLED"}

== a practice run comes last, and until it is over
call 0 0 0 RegisterManagedResource {"name":"lb","availabilityZones":["az1","az2","az3"]}
call 0 0 0 CreatePracticeRunConfiguration {"resourceIdentifier":"arn:arc:resource/0000000000000001","outcomeAlarms":[{"alarmIdentifier":"errors"}]}
call 0 0 0 StartAutoshift {"awayFrom":"other"}
call 0 0 0 StartAutoshift {"awayFrom":"az3"}
call 0 0 0 StartAutoshift {"awayFrom":"az2"}
call 0 0 0 StartPracticeRun {"resourceIdentifier":"arn:arc:resource/0000000000000001","awayFrom":"az2","comment":""}
call 0 0 0 GetManagedResource {"resourceIdentifier":"arn:arc:resource/0000000000000001"}
call 0 1799999 0 GetManagedResource {"resourceIdentifier":"arn:arc:resource/0000000000000001"}
call 0 1800000 0 GetManagedResource {"resourceIdentifier":"arn:arc:resource/0000000000000001"}
----
slot 0 token 1 200 {"resourceIdentifier":"arn:arc:resource/0000000000000001"}
slot 1 token 2 200 {}
slot 2 token 3 200 {}
slot 3 token 4 200 {}
slot 4 token 5 200 {}
slot 5 token 6 200 {"awayFrom":"az2","comment":"","expiryTime":1800000,"practiceRunOutcome":"PENDING","resourceIdentifier":"arn:arc:resource/0000000000000001","startTime":0,"status":"ACTIVE","zonalShiftId":"00000000-0000-0000-0000-000000000001"}
slot 6 token 7 200 {"appliedShift":{"awayFrom":"az2","kind":"PRACTICE_RUN"},"availabilityZones":["az1","az2","az3"],"name":"lb","resourceIdentifier":"arn:arc:resource/0000000000000001","zonalAutoshiftStatus":"DISABLED"}
slot 7 token 8 200 {"appliedShift":{"awayFrom":"az2","kind":"PRACTICE_RUN"},"availabilityZones":["az1","az2","az3"],"name":"lb","resourceIdentifier":"arn:arc:resource/0000000000000001","zonalAutoshiftStatus":"DISABLED"}
slot 8 token 9 200 {"appliedShift":null,"availabilityZones":["az1","az2","az3"],"name":"lb","resourceIdentifier":"arn:arc:resource/0000000000000001","zonalAutoshiftStatus":"DISABLED"}

== a run follows a customer's shift
call 0 0 0 RegisterManagedResource {"name":"lb","availabilityZones":["az1","az2","az3"]}
call 0 0 0 CreatePracticeRunConfiguration {"resourceIdentifier":"arn:arc:resource/0000000000000001","outcomeAlarms":[{"alarmIdentifier":"errors"}]}
call 0 0 0 StartZonalShift {"resourceIdentifier":"arn:arc:resource/0000000000000001","awayFrom":"az1","expiresIn":"1m","comment":""}
call 0 60000 0 StartPracticeRun {"resourceIdentifier":"arn:arc:resource/0000000000000001","awayFrom":"az2","comment":""}
call 0 60000 0 GetManagedResource {"resourceIdentifier":"arn:arc:resource/0000000000000001"}
----
slot 0 token 1 200 {"resourceIdentifier":"arn:arc:resource/0000000000000001"}
slot 1 token 2 200 {}
slot 2 token 3 200 {"awayFrom":"az1","comment":"","expiryTime":60000,"resourceIdentifier":"arn:arc:resource/0000000000000001","startTime":0,"status":"ACTIVE","zonalShiftId":"00000000-0000-0000-0000-000000000001"}
slot 3 token 4 200 {"awayFrom":"az2","comment":"","expiryTime":1860000,"practiceRunOutcome":"PENDING","resourceIdentifier":"arn:arc:resource/0000000000000001","startTime":60000,"status":"ACTIVE","zonalShiftId":"00000000-0000-0000-0000-000000000002"}
slot 4 token 5 200 {"appliedShift":{"awayFrom":"az2","kind":"PRACTICE_RUN"},"availabilityZones":["az1","az2","az3"],"name":"lb","resourceIdentifier":"arn:arc:resource/0000000000000001","zonalAutoshiftStatus":"DISABLED"}

== a customer's shift takes a run's place, from whichever zone
call 0 0 0 RegisterManagedResource {"name":"lb","availabilityZones":["az1","az2","az3"]}
call 0 0 0 CreatePracticeRunConfiguration {"resourceIdentifier":"arn:arc:resource/0000000000000001","outcomeAlarms":[{"alarmIdentifier":"errors"}]}
call 0 0 0 StartPracticeRun {"resourceIdentifier":"arn:arc:resource/0000000000000001","awayFrom":"az1","comment":""}
call 0 1 0 StartZonalShift {"resourceIdentifier":"arn:arc:resource/0000000000000001","awayFrom":"az2","expiresIn":"1m","comment":""}
call 0 1 0 GetManagedResource {"resourceIdentifier":"arn:arc:resource/0000000000000001"}
call 0 60001 0 GetManagedResource {"resourceIdentifier":"arn:arc:resource/0000000000000001"}
call 0 60001 0 ListZonalShifts
----
slot 0 token 1 200 {"resourceIdentifier":"arn:arc:resource/0000000000000001"}
slot 1 token 2 200 {}
slot 2 token 3 200 {"awayFrom":"az1","comment":"","expiryTime":1800000,"practiceRunOutcome":"PENDING","resourceIdentifier":"arn:arc:resource/0000000000000001","startTime":0,"status":"ACTIVE","zonalShiftId":"00000000-0000-0000-0000-000000000001"}
slot 3 token 4 200 {"awayFrom":"az2","comment":"","expiryTime":60001,"resourceIdentifier":"arn:arc:resource/0000000000000001","startTime":1,"status":"ACTIVE","zonalShiftId":"00000000-0000-0000-0000-000000000002"}
slot 4 token 5 200 {"appliedShift":{"awayFrom":"az2","kind":"CUSTOMER"},"availabilityZones":["az1","az2","az3"],"name":"lb","resourceIdentifier":"arn:arc:resource/0000000000000001","zonalAutoshiftStatus":"DISABLED"}
slot 5 token 6 200 {"appliedShift":null,"availabilityZones":["az1","az2","az3"],"name":"lb","resourceIdentifier":"arn:arc:resource/0000000000000001","zonalAutoshiftStatus":"DISABLED"}
slot 6 token 7 200 {"items":[{"awayFrom":"az1","comment":"","expiryTime":1800000,"practiceRunOutcome":"INTERRUPTED","resourceIdentifier":"arn:arc:resource/0000000000000001","startTime":0,"status":"CANCELED","zonalShiftId":"00000000-0000-0000-0000-000000000001"},{"awayFrom":"az2","comment":"","expiryTime":60001,"resourceIdentifier":"arn:arc:resource/0000000000000001","startTime":1,"status":"EXPIRED","zonalShiftId":"00000000-0000-0000-0000-000000000002"}]}

== an autoshift interrupts the run of an enabled resource that has its zone
call 0 0 0 RegisterManagedResource {"name":"lb","availabilityZones":["use1-az1","use1-az2"]}
call 0 0 0 CreatePracticeRunConfiguration {"resourceIdentifier":"arn:arc:resource/0000000000000001","outcomeAlarms":[{"alarmIdentifier":"errors"}]}
call 0 0 0 UpdateZonalAutoshiftConfiguration {"resourceIdentifier":"arn:arc:resource/0000000000000001","zonalAutoshiftStatus":"ENABLED"}
call 0 347400000 0 StartPracticeRun {"resourceIdentifier":"arn:arc:resource/0000000000000001","awayFrom":"use1-az1","comment":""}
# a zone that the resource lacks
call 0 347400000 0 StartAutoshift {"awayFrom":"use1-az3"}
call 0 347400000 0 GetManagedResource {"resourceIdentifier":"arn:arc:resource/0000000000000001"}
call 0 347400000 0 StartAutoshift {"awayFrom":"use1-az2"}
call 0 347400000 0 ListZonalShifts
call 0 347400000 0 CancelPracticeRun {"zonalShiftId":"00000000-0000-0000-0000-000000000001"}
call 0 347400000 0 StartPracticeRun {"resourceIdentifier":"arn:arc:resource/0000000000000001","awayFrom":"use1-az1","comment":""}
call 0 347400000 0 EndAutoshift {"awayFrom":"use1-az2"}
call 0 347400000 0 StartPracticeRun {"resourceIdentifier":"arn:arc:resource/0000000000000001","awayFrom":"use1-az1","comment":""}
call 0 349199999 0 DeletePracticeRunConfiguration {"resourceIdentifier":"arn:arc:resource/0000000000000001"}
call 0 349199999 0 CancelPracticeRun {"zonalShiftId":"00000000-0000-0000-0000-000000000002"}
----
slot 0 token 1 200 {"resourceIdentifier":"arn:arc:resource/0000000000000001"}
slot 1 token 2 200 {}
slot 2 token 3 200 {"resourceIdentifier":"arn:arc:resource/0000000000000001","zonalAutoshiftStatus":"ENABLED"}
slot 3 token 4 200 {"awayFrom":"use1-az1","comment":"","expiryTime":349200000,"practiceRunOutcome":"PENDING","resourceIdentifier":"arn:arc:resource/0000000000000001","startTime":347400000,"status":"ACTIVE","zonalShiftId":"00000000-0000-0000-0000-000000000001"}
slot 4 token 5 200 {}
slot 5 token 6 200 {"appliedShift":{"awayFrom":"use1-az1","kind":"PRACTICE_RUN"},"availabilityZones":["use1-az1","use1-az2"],"name":"lb","resourceIdentifier":"arn:arc:resource/0000000000000001","zonalAutoshiftStatus":"ENABLED"}
slot 6 token 7 200 {}
slot 7 token 8 200 {"items":[{"awayFrom":"use1-az1","comment":"","expiryTime":349200000,"practiceRunOutcome":"INTERRUPTED","resourceIdentifier":"arn:arc:resource/0000000000000001","startTime":347400000,"status":"CANCELED","zonalShiftId":"00000000-0000-0000-0000-000000000001"}]}
slot 8 token 9 409 {"Reason":"NotActive","Status":"CANCELED","__type":"ConflictException"}
slot 9 token 10 409 {"By":"AUTOSHIFT","Reason":"Busy","__type":"ConflictException"}
slot 10 token 11 200 {}
slot 11 token 12 200 {"awayFrom":"use1-az1","comment":"","expiryTime":349200000,"practiceRunOutcome":"PENDING","resourceIdentifier":"arn:arc:resource/0000000000000001","startTime":347400000,"status":"ACTIVE","zonalShiftId":"00000000-0000-0000-0000-000000000002"}
slot 12 token 13 409 {"By":"PRACTICE_RUN","Reason":"Busy","__type":"ConflictException"}
slot 13 token 14 200 {"awayFrom":"use1-az1","comment":"","expiryTime":349200000,"practiceRunOutcome":"INTERRUPTED","resourceIdentifier":"arn:arc:resource/0000000000000001","startTime":347400000,"status":"CANCELED","zonalShiftId":"00000000-0000-0000-0000-000000000002"}

== an autoshift that is enabled interrupts a run
call 0 0 0 RegisterManagedResource {"name":"lb","availabilityZones":["use1-az1","use1-az2"]}
call 0 0 0 CreatePracticeRunConfiguration {"resourceIdentifier":"arn:arc:resource/0000000000000001","outcomeAlarms":[{"alarmIdentifier":"errors"}]}
call 0 347400000 0 StartPracticeRun {"resourceIdentifier":"arn:arc:resource/0000000000000001","awayFrom":"use1-az1","comment":""}
call 0 347400000 0 StartAutoshift {"awayFrom":"use1-az2"}
call 0 347400000 0 GetManagedResource {"resourceIdentifier":"arn:arc:resource/0000000000000001"}
call 0 347400000 0 UpdateZonalAutoshiftConfiguration {"resourceIdentifier":"arn:arc:resource/0000000000000001","zonalAutoshiftStatus":"ENABLED"}
call 0 347400000 0 ListZonalShifts
call 0 347400000 0 GetManagedResource {"resourceIdentifier":"arn:arc:resource/0000000000000001"}
----
slot 0 token 1 200 {"resourceIdentifier":"arn:arc:resource/0000000000000001"}
slot 1 token 2 200 {}
slot 2 token 3 200 {"awayFrom":"use1-az1","comment":"","expiryTime":349200000,"practiceRunOutcome":"PENDING","resourceIdentifier":"arn:arc:resource/0000000000000001","startTime":347400000,"status":"ACTIVE","zonalShiftId":"00000000-0000-0000-0000-000000000001"}
slot 3 token 4 200 {}
slot 4 token 5 200 {"appliedShift":{"awayFrom":"use1-az1","kind":"PRACTICE_RUN"},"availabilityZones":["use1-az1","use1-az2"],"name":"lb","resourceIdentifier":"arn:arc:resource/0000000000000001","zonalAutoshiftStatus":"DISABLED"}
slot 5 token 6 200 {"resourceIdentifier":"arn:arc:resource/0000000000000001","zonalAutoshiftStatus":"ENABLED"}
slot 6 token 7 200 {"items":[{"awayFrom":"use1-az1","comment":"","expiryTime":349200000,"practiceRunOutcome":"INTERRUPTED","resourceIdentifier":"arn:arc:resource/0000000000000001","startTime":347400000,"status":"CANCELED","zonalShiftId":"00000000-0000-0000-0000-000000000001"}]}
slot 7 token 8 200 {"appliedShift":{"awayFrom":"use1-az2","kind":"AUTOSHIFT"},"availabilityZones":["use1-az1","use1-az2"],"name":"lb","resourceIdentifier":"arn:arc:resource/0000000000000001","zonalAutoshiftStatus":"ENABLED"}

== enabling without an autoshift of the resource's zones lets a run go on
call 0 0 0 RegisterManagedResource {"name":"lb","availabilityZones":["az1","az2","az3"]}
call 0 0 0 CreatePracticeRunConfiguration {"resourceIdentifier":"arn:arc:resource/0000000000000001","outcomeAlarms":[{"alarmIdentifier":"errors"}]}
call 0 0 0 StartPracticeRun {"resourceIdentifier":"arn:arc:resource/0000000000000001","awayFrom":"az1","comment":""}
call 0 0 0 StartAutoshift {"awayFrom":"other"}
call 0 0 0 UpdateZonalAutoshiftConfiguration {"resourceIdentifier":"arn:arc:resource/0000000000000001","zonalAutoshiftStatus":"ENABLED"}
call 0 0 0 ListZonalShifts
call 0 0 0 GetManagedResource {"resourceIdentifier":"arn:arc:resource/0000000000000001"}
----
slot 0 token 1 200 {"resourceIdentifier":"arn:arc:resource/0000000000000001"}
slot 1 token 2 200 {}
slot 2 token 3 200 {"awayFrom":"az1","comment":"","expiryTime":1800000,"practiceRunOutcome":"PENDING","resourceIdentifier":"arn:arc:resource/0000000000000001","startTime":0,"status":"ACTIVE","zonalShiftId":"00000000-0000-0000-0000-000000000001"}
slot 3 token 4 200 {}
slot 4 token 5 200 {"resourceIdentifier":"arn:arc:resource/0000000000000001","zonalAutoshiftStatus":"ENABLED"}
slot 5 token 6 200 {"items":[{"awayFrom":"az1","comment":"","expiryTime":1800000,"practiceRunOutcome":"PENDING","resourceIdentifier":"arn:arc:resource/0000000000000001","startTime":0,"status":"ACTIVE","zonalShiftId":"00000000-0000-0000-0000-000000000001"}]}
slot 6 token 7 200 {"appliedShift":{"awayFrom":"az1","kind":"PRACTICE_RUN"},"availabilityZones":["az1","az2","az3"],"name":"lb","resourceIdentifier":"arn:arc:resource/0000000000000001","zonalAutoshiftStatus":"ENABLED"}

== disabling lets a run go on
call 0 0 0 RegisterManagedResource {"name":"lb","availabilityZones":["az1","az2","az3"]}
call 0 0 0 CreatePracticeRunConfiguration {"resourceIdentifier":"arn:arc:resource/0000000000000001","outcomeAlarms":[{"alarmIdentifier":"errors"}]}
call 0 0 0 UpdateZonalAutoshiftConfiguration {"resourceIdentifier":"arn:arc:resource/0000000000000001","zonalAutoshiftStatus":"ENABLED"}
call 0 0 0 StartPracticeRun {"resourceIdentifier":"arn:arc:resource/0000000000000001","awayFrom":"az1","comment":""}
call 0 0 0 UpdateZonalAutoshiftConfiguration {"resourceIdentifier":"arn:arc:resource/0000000000000001","zonalAutoshiftStatus":"DISABLED"}
call 0 0 0 ListZonalShifts
# and so does an autoshift then
call 0 0 0 StartAutoshift {"awayFrom":"az1"}
call 0 0 0 ListZonalShifts
call 0 0 0 GetManagedResource {"resourceIdentifier":"arn:arc:resource/0000000000000001"}
----
slot 0 token 1 200 {"resourceIdentifier":"arn:arc:resource/0000000000000001"}
slot 1 token 2 200 {}
slot 2 token 3 200 {"resourceIdentifier":"arn:arc:resource/0000000000000001","zonalAutoshiftStatus":"ENABLED"}
slot 3 token 4 200 {"awayFrom":"az1","comment":"","expiryTime":1800000,"practiceRunOutcome":"PENDING","resourceIdentifier":"arn:arc:resource/0000000000000001","startTime":0,"status":"ACTIVE","zonalShiftId":"00000000-0000-0000-0000-000000000001"}
slot 4 token 5 200 {"resourceIdentifier":"arn:arc:resource/0000000000000001","zonalAutoshiftStatus":"DISABLED"}
slot 5 token 6 200 {"items":[{"awayFrom":"az1","comment":"","expiryTime":1800000,"practiceRunOutcome":"PENDING","resourceIdentifier":"arn:arc:resource/0000000000000001","startTime":0,"status":"ACTIVE","zonalShiftId":"00000000-0000-0000-0000-000000000001"}]}
slot 6 token 7 200 {}
slot 7 token 8 200 {"items":[{"awayFrom":"az1","comment":"","expiryTime":1800000,"practiceRunOutcome":"PENDING","resourceIdentifier":"arn:arc:resource/0000000000000001","startTime":0,"status":"ACTIVE","zonalShiftId":"00000000-0000-0000-0000-000000000001"}]}
slot 8 token 9 200 {"appliedShift":{"awayFrom":"az1","kind":"PRACTICE_RUN"},"availabilityZones":["az1","az2","az3"],"name":"lb","resourceIdentifier":"arn:arc:resource/0000000000000001","zonalAutoshiftStatus":"DISABLED"}

== an autoshift away from the run's own zone interrupts it too
call 0 0 0 RegisterManagedResource {"name":"lb","availabilityZones":["az1","az2","az3"]}
call 0 0 0 CreatePracticeRunConfiguration {"resourceIdentifier":"arn:arc:resource/0000000000000001","outcomeAlarms":[{"alarmIdentifier":"errors"}]}
call 0 0 0 UpdateZonalAutoshiftConfiguration {"resourceIdentifier":"arn:arc:resource/0000000000000001","zonalAutoshiftStatus":"ENABLED"}
call 0 0 0 StartPracticeRun {"resourceIdentifier":"arn:arc:resource/0000000000000001","awayFrom":"az1","comment":""}
call 0 0 0 StartAutoshift {"awayFrom":"az1"}
call 0 0 0 ListZonalShifts
call 0 0 0 GetManagedResource {"resourceIdentifier":"arn:arc:resource/0000000000000001"}
----
slot 0 token 1 200 {"resourceIdentifier":"arn:arc:resource/0000000000000001"}
slot 1 token 2 200 {}
slot 2 token 3 200 {"resourceIdentifier":"arn:arc:resource/0000000000000001","zonalAutoshiftStatus":"ENABLED"}
slot 3 token 4 200 {"awayFrom":"az1","comment":"","expiryTime":1800000,"practiceRunOutcome":"PENDING","resourceIdentifier":"arn:arc:resource/0000000000000001","startTime":0,"status":"ACTIVE","zonalShiftId":"00000000-0000-0000-0000-000000000001"}
slot 4 token 5 200 {}
slot 5 token 6 200 {"items":[{"awayFrom":"az1","comment":"","expiryTime":1800000,"practiceRunOutcome":"INTERRUPTED","resourceIdentifier":"arn:arc:resource/0000000000000001","startTime":0,"status":"CANCELED","zonalShiftId":"00000000-0000-0000-0000-000000000001"}]}
slot 6 token 7 200 {"appliedShift":{"awayFrom":"az1","kind":"AUTOSHIFT"},"availabilityZones":["az1","az2","az3"],"name":"lb","resourceIdentifier":"arn:arc:resource/0000000000000001","zonalAutoshiftStatus":"ENABLED"}

== a refused autoshift interrupts no run
call 0 0 0 RegisterManagedResource {"name":"lb","availabilityZones":["az1","az2","az3"]}
call 0 0 0 CreatePracticeRunConfiguration {"resourceIdentifier":"arn:arc:resource/0000000000000001","outcomeAlarms":[{"alarmIdentifier":"errors"}]}
call 0 0 0 StartAutoshift {"awayFrom":"az2"}
call 0 0 0 StartPracticeRun {"resourceIdentifier":"arn:arc:resource/0000000000000001","awayFrom":"az1","comment":""}
call 0 0 0 StartAutoshift {"awayFrom":"az2"}
call 0 0 0 ListZonalShifts
----
slot 0 token 1 200 {"resourceIdentifier":"arn:arc:resource/0000000000000001"}
slot 1 token 2 200 {}
slot 2 token 3 200 {}
slot 3 token 4 200 {"awayFrom":"az1","comment":"","expiryTime":1800000,"practiceRunOutcome":"PENDING","resourceIdentifier":"arn:arc:resource/0000000000000001","startTime":0,"status":"ACTIVE","zonalShiftId":"00000000-0000-0000-0000-000000000001"}
slot 4 token 5 409 {"Reason":"Started","Resource":"az2","__type":"ConflictException"}
slot 5 token 6 200 {"items":[{"awayFrom":"az1","comment":"","expiryTime":1800000,"practiceRunOutcome":"PENDING","resourceIdentifier":"arn:arc:resource/0000000000000001","startTime":0,"status":"ACTIVE","zonalShiftId":"00000000-0000-0000-0000-000000000001"}]}

== an autoshift beyond the limit interrupts no run
call 0 0 0 RegisterManagedResource {"name":"lb","availabilityZones":["az1","az2","az3"]}
call 0 0 0 CreatePracticeRunConfiguration {"resourceIdentifier":"arn:arc:resource/0000000000000001","outcomeAlarms":[{"alarmIdentifier":"errors"}]}
call 0 0 0 UpdateZonalAutoshiftConfiguration {"resourceIdentifier":"arn:arc:resource/0000000000000001","zonalAutoshiftStatus":"ENABLED"}
call 0 0 0 StartPracticeRun {"resourceIdentifier":"arn:arc:resource/0000000000000001","awayFrom":"az1","comment":""}
loop n 0 15
call 0 0 0 StartAutoshift {"awayFrom":"x{n}"}
endloop
call 0 0 0 StartAutoshift {"awayFrom":"az2"}
call 0 0 0 ListZonalShifts
----
slot 0 token 1 200 {"resourceIdentifier":"arn:arc:resource/0000000000000001"}
slot 1 token 2 200 {}
slot 2 token 3 200 {"resourceIdentifier":"arn:arc:resource/0000000000000001","zonalAutoshiftStatus":"ENABLED"}
slot 3 token 4 200 {"awayFrom":"az1","comment":"","expiryTime":1800000,"practiceRunOutcome":"PENDING","resourceIdentifier":"arn:arc:resource/0000000000000001","startTime":0,"status":"ACTIVE","zonalShiftId":"00000000-0000-0000-0000-000000000001"}
loop n 0 15
slot {n+4} token {n+5} 200 {}
endloop
slot 20 token 21 402 {"Count":16,"Reason":"Limit","__type":"ServiceLimitExceededException"}
slot 21 token 22 200 {"items":[{"awayFrom":"az1","comment":"","expiryTime":1800000,"practiceRunOutcome":"PENDING","resourceIdentifier":"arn:arc:resource/0000000000000001","startTime":0,"status":"ACTIVE","zonalShiftId":"00000000-0000-0000-0000-000000000001"}]}

== an end of an autoshift interrupts no run
call 0 0 0 RegisterManagedResource {"name":"lb","availabilityZones":["az1","az2","az3"]}
call 0 0 0 CreatePracticeRunConfiguration {"resourceIdentifier":"arn:arc:resource/0000000000000001","outcomeAlarms":[{"alarmIdentifier":"errors"}]}
call 0 0 0 UpdateZonalAutoshiftConfiguration {"resourceIdentifier":"arn:arc:resource/0000000000000001","zonalAutoshiftStatus":"ENABLED"}
call 0 0 0 StartAutoshift {"awayFrom":"other"}
call 0 0 0 StartPracticeRun {"resourceIdentifier":"arn:arc:resource/0000000000000001","awayFrom":"az1","comment":""}
call 0 0 0 EndAutoshift {"awayFrom":"other"}
call 0 0 0 ListZonalShifts
----
slot 0 token 1 200 {"resourceIdentifier":"arn:arc:resource/0000000000000001"}
slot 1 token 2 200 {}
slot 2 token 3 200 {"resourceIdentifier":"arn:arc:resource/0000000000000001","zonalAutoshiftStatus":"ENABLED"}
slot 3 token 4 200 {}
slot 4 token 5 200 {"awayFrom":"az1","comment":"","expiryTime":1800000,"practiceRunOutcome":"PENDING","resourceIdentifier":"arn:arc:resource/0000000000000001","startTime":0,"status":"ACTIVE","zonalShiftId":"00000000-0000-0000-0000-000000000001"}
slot 5 token 6 200 {}
slot 6 token 7 200 {"items":[{"awayFrom":"az1","comment":"","expiryTime":1800000,"practiceRunOutcome":"PENDING","resourceIdentifier":"arn:arc:resource/0000000000000001","startTime":0,"status":"ACTIVE","zonalShiftId":"00000000-0000-0000-0000-000000000001"}]}

== an autoshift interrupts the runs of all enabled resources that have its zone
call 0 0 0 RegisterManagedResource {"name":"lb","availabilityZones":["az1","az2","az3"]}
call 0 0 0 CreatePracticeRunConfiguration {"resourceIdentifier":"arn:arc:resource/0000000000000001","outcomeAlarms":[{"alarmIdentifier":"errors"}]}
call 0 0 0 UpdateZonalAutoshiftConfiguration {"resourceIdentifier":"arn:arc:resource/0000000000000001","zonalAutoshiftStatus":"ENABLED"}
call 0 0 0 RegisterManagedResource {"name":"api","availabilityZones":["az1","az2"]}
call 0 0 0 CreatePracticeRunConfiguration {"resourceIdentifier":"arn:arc:resource/0000000000000002","outcomeAlarms":[{"alarmIdentifier":"errors"}]}
call 0 0 0 RegisterManagedResource {"name":"web","availabilityZones":["az1","az2"]}
call 0 0 0 CreatePracticeRunConfiguration {"resourceIdentifier":"arn:arc:resource/0000000000000003","outcomeAlarms":[{"alarmIdentifier":"errors"}]}
call 0 0 0 UpdateZonalAutoshiftConfiguration {"resourceIdentifier":"arn:arc:resource/0000000000000003","zonalAutoshiftStatus":"ENABLED"}
call 0 0 0 StartPracticeRun {"resourceIdentifier":"arn:arc:resource/0000000000000001","awayFrom":"az1","comment":""}
call 0 0 0 StartPracticeRun {"resourceIdentifier":"arn:arc:resource/0000000000000002","awayFrom":"az1","comment":""}
call 0 0 0 StartPracticeRun {"resourceIdentifier":"arn:arc:resource/0000000000000003","awayFrom":"az1","comment":""}
# resource 2 isn't enabled, and resource 3 lacks the zone
call 0 0 0 StartAutoshift {"awayFrom":"az3"}
call 0 0 0 ListZonalShifts
call 0 0 0 StartAutoshift {"awayFrom":"az2"}
call 0 0 0 ListZonalShifts
----
slot 0 token 1 200 {"resourceIdentifier":"arn:arc:resource/0000000000000001"}
slot 1 token 2 200 {}
slot 2 token 3 200 {"resourceIdentifier":"arn:arc:resource/0000000000000001","zonalAutoshiftStatus":"ENABLED"}
slot 3 token 4 200 {"resourceIdentifier":"arn:arc:resource/0000000000000002"}
slot 4 token 5 200 {}
slot 5 token 6 200 {"resourceIdentifier":"arn:arc:resource/0000000000000003"}
slot 6 token 7 200 {}
slot 7 token 8 200 {"resourceIdentifier":"arn:arc:resource/0000000000000003","zonalAutoshiftStatus":"ENABLED"}
slot 8 token 9 200 {"awayFrom":"az1","comment":"","expiryTime":1800000,"practiceRunOutcome":"PENDING","resourceIdentifier":"arn:arc:resource/0000000000000001","startTime":0,"status":"ACTIVE","zonalShiftId":"00000000-0000-0000-0000-000000000001"}
slot 9 token 10 200 {"awayFrom":"az1","comment":"","expiryTime":1800000,"practiceRunOutcome":"PENDING","resourceIdentifier":"arn:arc:resource/0000000000000002","startTime":0,"status":"ACTIVE","zonalShiftId":"00000000-0000-0000-0000-000000000002"}
slot 10 token 11 200 {"awayFrom":"az1","comment":"","expiryTime":1800000,"practiceRunOutcome":"PENDING","resourceIdentifier":"arn:arc:resource/0000000000000003","startTime":0,"status":"ACTIVE","zonalShiftId":"00000000-0000-0000-0000-000000000003"}
slot 11 token 12 200 {}
slot 12 token 13 200 {"items":[{"awayFrom":"az1","comment":"","expiryTime":1800000,"practiceRunOutcome":"INTERRUPTED","resourceIdentifier":"arn:arc:resource/0000000000000001","startTime":0,"status":"CANCELED","zonalShiftId":"00000000-0000-0000-0000-000000000001"},{"awayFrom":"az1","comment":"","expiryTime":1800000,"practiceRunOutcome":"PENDING","resourceIdentifier":"arn:arc:resource/0000000000000002","startTime":0,"status":"ACTIVE","zonalShiftId":"00000000-0000-0000-0000-000000000002"},{"awayFrom":"az1","comment":"","expiryTime":1800000,"practiceRunOutcome":"PENDING","resourceIdentifier":"arn:arc:resource/0000000000000003","startTime":0,"status":"ACTIVE","zonalShiftId":"00000000-0000-0000-0000-000000000003"}]}
slot 13 token 14 200 {}
slot 14 token 15 200 {"items":[{"awayFrom":"az1","comment":"","expiryTime":1800000,"practiceRunOutcome":"INTERRUPTED","resourceIdentifier":"arn:arc:resource/0000000000000001","startTime":0,"status":"CANCELED","zonalShiftId":"00000000-0000-0000-0000-000000000001"},{"awayFrom":"az1","comment":"","expiryTime":1800000,"practiceRunOutcome":"PENDING","resourceIdentifier":"arn:arc:resource/0000000000000002","startTime":0,"status":"ACTIVE","zonalShiftId":"00000000-0000-0000-0000-000000000002"},{"awayFrom":"az1","comment":"","expiryTime":1800000,"practiceRunOutcome":"INTERRUPTED","resourceIdentifier":"arn:arc:resource/0000000000000003","startTime":0,"status":"CANCELED","zonalShiftId":"00000000-0000-0000-0000-000000000003"}]}

== a customer's shift starts under an autoshift
call 0 0 0 RegisterManagedResource {"name":"lb","availabilityZones":["az1","az2","az3"]}
call 0 0 0 CreatePracticeRunConfiguration {"resourceIdentifier":"arn:arc:resource/0000000000000001","outcomeAlarms":[{"alarmIdentifier":"errors"}]}
call 0 0 0 UpdateZonalAutoshiftConfiguration {"resourceIdentifier":"arn:arc:resource/0000000000000001","zonalAutoshiftStatus":"ENABLED"}
call 0 0 0 StartAutoshift {"awayFrom":"other"}
call 0 0 0 StartAutoshift {"awayFrom":"az3"}
call 0 0 0 StartAutoshift {"awayFrom":"az2"}
call 0 0 0 StartZonalShift {"resourceIdentifier":"arn:arc:resource/0000000000000001","awayFrom":"az1","expiresIn":"1m","comment":""}
call 0 0 0 UpdateZonalShift {"zonalShiftId":"00000000-0000-0000-0000-000000000001","expiresIn":"2m"}
call 0 119999 0 GetManagedResource {"resourceIdentifier":"arn:arc:resource/0000000000000001"}
----
slot 0 token 1 200 {"resourceIdentifier":"arn:arc:resource/0000000000000001"}
slot 1 token 2 200 {}
slot 2 token 3 200 {"resourceIdentifier":"arn:arc:resource/0000000000000001","zonalAutoshiftStatus":"ENABLED"}
slot 3 token 4 200 {}
slot 4 token 5 200 {}
slot 5 token 6 200 {}
slot 6 token 7 200 {"awayFrom":"az1","comment":"","expiryTime":60000,"resourceIdentifier":"arn:arc:resource/0000000000000001","startTime":0,"status":"ACTIVE","zonalShiftId":"00000000-0000-0000-0000-000000000001"}
slot 7 token 8 200 {"awayFrom":"az1","comment":"","expiryTime":120000,"resourceIdentifier":"arn:arc:resource/0000000000000001","startTime":0,"status":"ACTIVE","zonalShiftId":"00000000-0000-0000-0000-000000000001"}
slot 8 token 9 200 {"appliedShift":{"awayFrom":"az1","kind":"CUSTOMER"},"availabilityZones":["az1","az2","az3"],"name":"lb","resourceIdentifier":"arn:arc:resource/0000000000000001","zonalAutoshiftStatus":"ENABLED"}

== what is applied is each resource's own
call 0 0 0 RegisterManagedResource {"name":"lb","availabilityZones":["az1","az2","az3"]}
call 0 0 0 CreatePracticeRunConfiguration {"resourceIdentifier":"arn:arc:resource/0000000000000001","outcomeAlarms":[{"alarmIdentifier":"errors"}]}
call 0 0 0 RegisterManagedResource {"name":"api","availabilityZones":["az1","az2"]}
call 0 0 0 StartZonalShift {"resourceIdentifier":"arn:arc:resource/0000000000000002","awayFrom":"az1","expiresIn":"1m","comment":""}
call 0 0 0 GetManagedResource {"resourceIdentifier":"arn:arc:resource/0000000000000001"}
call 0 0 0 StartPracticeRun {"resourceIdentifier":"arn:arc:resource/0000000000000001","awayFrom":"az1","comment":""}
call 0 0 0 GetManagedResource {"resourceIdentifier":"arn:arc:resource/0000000000000001"}
call 0 0 0 GetManagedResource {"resourceIdentifier":"arn:arc:resource/0000000000000002"}
----
slot 0 token 1 200 {"resourceIdentifier":"arn:arc:resource/0000000000000001"}
slot 1 token 2 200 {}
slot 2 token 3 200 {"resourceIdentifier":"arn:arc:resource/0000000000000002"}
slot 3 token 4 200 {"awayFrom":"az1","comment":"","expiryTime":60000,"resourceIdentifier":"arn:arc:resource/0000000000000002","startTime":0,"status":"ACTIVE","zonalShiftId":"00000000-0000-0000-0000-000000000001"}
slot 4 token 5 200 {"appliedShift":null,"availabilityZones":["az1","az2","az3"],"name":"lb","resourceIdentifier":"arn:arc:resource/0000000000000001","zonalAutoshiftStatus":"DISABLED"}
slot 5 token 6 200 {"awayFrom":"az1","comment":"","expiryTime":1800000,"practiceRunOutcome":"PENDING","resourceIdentifier":"arn:arc:resource/0000000000000001","startTime":0,"status":"ACTIVE","zonalShiftId":"00000000-0000-0000-0000-000000000002"}
slot 6 token 7 200 {"appliedShift":{"awayFrom":"az1","kind":"PRACTICE_RUN"},"availabilityZones":["az1","az2","az3"],"name":"lb","resourceIdentifier":"arn:arc:resource/0000000000000001","zonalAutoshiftStatus":"DISABLED"}
slot 7 token 8 200 {"appliedShift":{"awayFrom":"az1","kind":"CUSTOMER"},"availabilityZones":["az1","az2"],"name":"api","resourceIdentifier":"arn:arc:resource/0000000000000002","zonalAutoshiftStatus":"DISABLED"}
