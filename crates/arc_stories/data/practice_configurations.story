# Practice run configurations: making, changing and deleting them.

== a resource has one configuration
call 0 0 0 RegisterManagedResource {"name":"lb","availabilityZones":["az1","az2"]}
call 0 0 0 CreatePracticeRunConfiguration {"resourceIdentifier":"arn:arc:resource/0000000000000001","outcomeAlarms":[{"alarmIdentifier":"errors"}]}
call 0 0 0 CreatePracticeRunConfiguration {"resourceIdentifier":"arn:arc:resource/0000000000000001","outcomeAlarms":[{"alarmIdentifier":"errors"}]}
call 0 0 0 CreatePracticeRunConfiguration {"resourceIdentifier":"arn:arc:resource/0000000000000001","outcomeAlarms":[{"alarmIdentifier":"other"}]}
----
slot 0 token 1 200 {"resourceIdentifier":"arn:arc:resource/0000000000000001"}
slot 1 token 2 200 {}
slot 2 token 3 409 {"Reason":"Configured","Resource":"arn:arc:resource/0000000000000001","__type":"ConflictException"}
slot 3 token 4 409 {"Reason":"Configured","Resource":"arn:arc:resource/0000000000000001","__type":"ConflictException"}

== a resource that isn't there is configured in no way
call 0 0 0 CreatePracticeRunConfiguration {"resourceIdentifier":"arn:arc:resource/0000000000000001","outcomeAlarms":[{"alarmIdentifier":"errors"}]}
call 0 0 0 UpdatePracticeRunConfiguration {"resourceIdentifier":"arn:arc:resource/0000000000000001","outcomeAlarms":[{"alarmIdentifier":"slow"}]}
call 0 0 0 DeletePracticeRunConfiguration {"resourceIdentifier":"arn:arc:resource/0000000000000001"}
----
slot 0 token 1 404 {"Reason":"NotFound","Resource":"arn:arc:resource/0000000000000001","__type":"ResourceNotFoundException"}
slot 1 token 2 404 {"Reason":"NotFound","Resource":"arn:arc:resource/0000000000000001","__type":"ResourceNotFoundException"}
slot 2 token 3 404 {"Reason":"NotFound","Resource":"arn:arc:resource/0000000000000001","__type":"ResourceNotFoundException"}

== a resource without a configuration has none to change or delete
call 0 0 0 RegisterManagedResource {"name":"lb","availabilityZones":["az1","az2"]}
call 0 0 0 UpdatePracticeRunConfiguration {"resourceIdentifier":"arn:arc:resource/0000000000000001","outcomeAlarms":[{"alarmIdentifier":"slow"}]}
call 0 0 0 DeletePracticeRunConfiguration {"resourceIdentifier":"arn:arc:resource/0000000000000001"}
----
slot 0 token 1 200 {"resourceIdentifier":"arn:arc:resource/0000000000000001"}
slot 1 token 2 404 {"Reason":"NotConfigured","Resource":"arn:arc:resource/0000000000000001","__type":"ResourceNotFoundException"}
slot 2 token 3 404 {"Reason":"NotConfigured","Resource":"arn:arc:resource/0000000000000001","__type":"ResourceNotFoundException"}

== a configuration is the resource's own
call 0 0 0 RegisterManagedResource {"name":"lb","availabilityZones":["az1","az2"]}
call 0 0 0 RegisterManagedResource {"name":"api","availabilityZones":["az1","az2"]}
call 0 0 0 CreatePracticeRunConfiguration {"resourceIdentifier":"arn:arc:resource/0000000000000001","outcomeAlarms":[{"alarmIdentifier":"errors"}]}
call 0 0 0 UpdatePracticeRunConfiguration {"resourceIdentifier":"arn:arc:resource/0000000000000002","blockedDates":[]}
call 0 0 0 CreatePracticeRunConfiguration {"resourceIdentifier":"arn:arc:resource/0000000000000002","outcomeAlarms":[{"alarmIdentifier":"slow"}]}
call 0 0 0 DeletePracticeRunConfiguration {"resourceIdentifier":"arn:arc:resource/0000000000000001"}
call 0 0 0 UpdatePracticeRunConfiguration {"resourceIdentifier":"arn:arc:resource/0000000000000002","blockedDates":[]}
----
slot 0 token 1 200 {"resourceIdentifier":"arn:arc:resource/0000000000000001"}
slot 1 token 2 200 {"resourceIdentifier":"arn:arc:resource/0000000000000002"}
slot 2 token 3 200 {}
slot 3 token 4 404 {"Reason":"NotConfigured","Resource":"arn:arc:resource/0000000000000002","__type":"ResourceNotFoundException"}
slot 4 token 5 200 {}
slot 5 token 6 200 {}
slot 6 token 7 200 {}

== a deleted configuration is gone and can be made again
call 0 0 0 RegisterManagedResource {"name":"lb","availabilityZones":["az1","az2"]}
call 0 0 0 CreatePracticeRunConfiguration {"resourceIdentifier":"arn:arc:resource/0000000000000001","outcomeAlarms":[{"alarmIdentifier":"errors"}]}
call 0 0 0 DeletePracticeRunConfiguration {"resourceIdentifier":"arn:arc:resource/0000000000000001"}
call 0 0 0 DeletePracticeRunConfiguration {"resourceIdentifier":"arn:arc:resource/0000000000000001"}
call 0 0 0 StartPracticeRun {"resourceIdentifier":"arn:arc:resource/0000000000000001","awayFrom":"az1","comment":""}
call 0 0 0 CreatePracticeRunConfiguration {"resourceIdentifier":"arn:arc:resource/0000000000000001","outcomeAlarms":[{"alarmIdentifier":"errors"}]}
call 0 0 0 StartPracticeRun {"resourceIdentifier":"arn:arc:resource/0000000000000001","awayFrom":"az1","comment":""}
----
slot 0 token 1 200 {"resourceIdentifier":"arn:arc:resource/0000000000000001"}
slot 1 token 2 200 {}
slot 2 token 3 200 {}
slot 3 token 4 404 {"Reason":"NotConfigured","Resource":"arn:arc:resource/0000000000000001","__type":"ResourceNotFoundException"}
slot 4 token 5 404 {"Reason":"NotConfigured","Resource":"arn:arc:resource/0000000000000001","__type":"ResourceNotFoundException"}
slot 5 token 6 200 {}
slot 6 token 7 200 {"awayFrom":"az1","comment":"","expiryTime":1800000,"practiceRunOutcome":"PENDING","resourceIdentifier":"arn:arc:resource/0000000000000001","startTime":0,"status":"ACTIVE","zonalShiftId":"00000000-0000-0000-0000-000000000001"}

== a configuration that is made again has nothing of the old one
call 0 0 0 RegisterManagedResource {"name":"lb","availabilityZones":["az1","az2"]}
call 0 0 0 CreatePracticeRunConfiguration {"resourceIdentifier":"arn:arc:resource/0000000000000001","blockedDates":["1970-01-01"],"blockedWindows":["Thu:00:00-Thu:00:01"],"blockingAlarms":[{"alarmIdentifier":"deploy"}],"outcomeAlarms":[{"alarmIdentifier":"errors"}]}
call 0 0 0 SetAlarmState {"alarmIdentifier":"deploy","state":"ALARM"}
call 0 0 0 DeletePracticeRunConfiguration {"resourceIdentifier":"arn:arc:resource/0000000000000001"}
call 0 0 0 CreatePracticeRunConfiguration {"resourceIdentifier":"arn:arc:resource/0000000000000001","outcomeAlarms":[{"alarmIdentifier":"errors"}]}
call 0 0 0 StartPracticeRun {"resourceIdentifier":"arn:arc:resource/0000000000000001","awayFrom":"az1","comment":""}
----
slot 0 token 1 200 {"resourceIdentifier":"arn:arc:resource/0000000000000001"}
slot 1 token 2 200 {}
slot 2 token 3 200 {}
slot 3 token 4 200 {}
slot 4 token 5 200 {}
slot 5 token 6 200 {"awayFrom":"az1","comment":"","expiryTime":1800000,"practiceRunOutcome":"PENDING","resourceIdentifier":"arn:arc:resource/0000000000000001","startTime":0,"status":"ACTIVE","zonalShiftId":"00000000-0000-0000-0000-000000000001"}

== a pending run keeps its configuration until its last millisecond
call 0 0 0 RegisterManagedResource {"name":"lb","availabilityZones":["az1","az2"]}
call 0 0 0 CreatePracticeRunConfiguration {"resourceIdentifier":"arn:arc:resource/0000000000000001","outcomeAlarms":[{"alarmIdentifier":"errors"}]}
call 0 0 0 StartPracticeRun {"resourceIdentifier":"arn:arc:resource/0000000000000001","awayFrom":"az1","comment":""}
call 0 1799999 0 DeletePracticeRunConfiguration {"resourceIdentifier":"arn:arc:resource/0000000000000001"}
call 0 1800000 0 DeletePracticeRunConfiguration {"resourceIdentifier":"arn:arc:resource/0000000000000001"}
call 0 1800000 0 ListZonalShifts
----
slot 0 token 1 200 {"resourceIdentifier":"arn:arc:resource/0000000000000001"}
slot 1 token 2 200 {}
slot 2 token 3 200 {"awayFrom":"az1","comment":"","expiryTime":1800000,"practiceRunOutcome":"PENDING","resourceIdentifier":"arn:arc:resource/0000000000000001","startTime":0,"status":"ACTIVE","zonalShiftId":"00000000-0000-0000-0000-000000000001"}
slot 3 token 4 409 {"By":"PRACTICE_RUN","Reason":"Busy","__type":"ConflictException"}
slot 4 token 5 200 {}
slot 5 token 6 200 {"items":[{"awayFrom":"az1","comment":"","expiryTime":1800000,"practiceRunOutcome":"SUCCEEDED","resourceIdentifier":"arn:arc:resource/0000000000000001","startTime":0,"status":"EXPIRED","zonalShiftId":"00000000-0000-0000-0000-000000000001"}]}

== a run that ended early lets its configuration go
call 0 0 0 RegisterManagedResource {"name":"lb","availabilityZones":["az1","az2"]}
call 0 0 0 CreatePracticeRunConfiguration {"resourceIdentifier":"arn:arc:resource/0000000000000001","outcomeAlarms":[{"alarmIdentifier":"errors"}]}
call 0 0 0 StartPracticeRun {"resourceIdentifier":"arn:arc:resource/0000000000000001","awayFrom":"az1","comment":""}
call 0 0 0 CancelPracticeRun {"zonalShiftId":"00000000-0000-0000-0000-000000000001"}
call 0 0 0 DeletePracticeRunConfiguration {"resourceIdentifier":"arn:arc:resource/0000000000000001"}
call 0 0 0 ListZonalShifts
----
slot 0 token 1 200 {"resourceIdentifier":"arn:arc:resource/0000000000000001"}
slot 1 token 2 200 {}
slot 2 token 3 200 {"awayFrom":"az1","comment":"","expiryTime":1800000,"practiceRunOutcome":"PENDING","resourceIdentifier":"arn:arc:resource/0000000000000001","startTime":0,"status":"ACTIVE","zonalShiftId":"00000000-0000-0000-0000-000000000001"}
slot 3 token 4 200 {"awayFrom":"az1","comment":"","expiryTime":1800000,"practiceRunOutcome":"INTERRUPTED","resourceIdentifier":"arn:arc:resource/0000000000000001","startTime":0,"status":"CANCELED","zonalShiftId":"00000000-0000-0000-0000-000000000001"}
slot 4 token 5 200 {}
slot 5 token 6 200 {"items":[{"awayFrom":"az1","comment":"","expiryTime":1800000,"practiceRunOutcome":"INTERRUPTED","resourceIdentifier":"arn:arc:resource/0000000000000001","startTime":0,"status":"CANCELED","zonalShiftId":"00000000-0000-0000-0000-000000000001"}]}

== a configuration stays while autoshift is enabled
call 0 0 0 RegisterManagedResource {"name":"lb","availabilityZones":["az1","az2"]}
call 0 0 0 CreatePracticeRunConfiguration {"resourceIdentifier":"arn:arc:resource/0000000000000001","outcomeAlarms":[{"alarmIdentifier":"errors"}]}
call 0 0 0 UpdateZonalAutoshiftConfiguration {"resourceIdentifier":"arn:arc:resource/0000000000000001","zonalAutoshiftStatus":"ENABLED"}
call 0 0 0 DeletePracticeRunConfiguration {"resourceIdentifier":"arn:arc:resource/0000000000000001"}
call 0 0 0 UpdateZonalAutoshiftConfiguration {"resourceIdentifier":"arn:arc:resource/0000000000000001","zonalAutoshiftStatus":"DISABLED"}
call 0 0 0 DeletePracticeRunConfiguration {"resourceIdentifier":"arn:arc:resource/0000000000000001"}
----
slot 0 token 1 200 {"resourceIdentifier":"arn:arc:resource/0000000000000001"}
slot 1 token 2 200 {}
slot 2 token 3 200 {"resourceIdentifier":"arn:arc:resource/0000000000000001","zonalAutoshiftStatus":"ENABLED"}
slot 3 token 4 409 {"Reason":"Enabled","Resource":"arn:arc:resource/0000000000000001","__type":"ConflictException"}
slot 4 token 5 200 {"resourceIdentifier":"arn:arc:resource/0000000000000001","zonalAutoshiftStatus":"DISABLED"}
slot 5 token 6 200 {}

== a pending run comes before an enabled autoshift
call 0 0 0 RegisterManagedResource {"name":"lb","availabilityZones":["az1","az2"]}
call 0 0 0 CreatePracticeRunConfiguration {"resourceIdentifier":"arn:arc:resource/0000000000000001","outcomeAlarms":[{"alarmIdentifier":"errors"}]}
call 0 0 0 UpdateZonalAutoshiftConfiguration {"resourceIdentifier":"arn:arc:resource/0000000000000001","zonalAutoshiftStatus":"ENABLED"}
call 0 0 0 StartPracticeRun {"resourceIdentifier":"arn:arc:resource/0000000000000001","awayFrom":"az1","comment":""}
call 0 0 0 DeletePracticeRunConfiguration {"resourceIdentifier":"arn:arc:resource/0000000000000001"}
call 0 0 0 CancelPracticeRun {"zonalShiftId":"00000000-0000-0000-0000-000000000001"}
call 0 0 0 DeletePracticeRunConfiguration {"resourceIdentifier":"arn:arc:resource/0000000000000001"}
----
slot 0 token 1 200 {"resourceIdentifier":"arn:arc:resource/0000000000000001"}
slot 1 token 2 200 {}
slot 2 token 3 200 {"resourceIdentifier":"arn:arc:resource/0000000000000001","zonalAutoshiftStatus":"ENABLED"}
slot 3 token 4 200 {"awayFrom":"az1","comment":"","expiryTime":1800000,"practiceRunOutcome":"PENDING","resourceIdentifier":"arn:arc:resource/0000000000000001","startTime":0,"status":"ACTIVE","zonalShiftId":"00000000-0000-0000-0000-000000000001"}
slot 4 token 5 409 {"By":"PRACTICE_RUN","Reason":"Busy","__type":"ConflictException"}
slot 5 token 6 200 {"awayFrom":"az1","comment":"","expiryTime":1800000,"practiceRunOutcome":"INTERRUPTED","resourceIdentifier":"arn:arc:resource/0000000000000001","startTime":0,"status":"CANCELED","zonalShiftId":"00000000-0000-0000-0000-000000000001"}
slot 6 token 7 409 {"Reason":"Enabled","Resource":"arn:arc:resource/0000000000000001","__type":"ConflictException"}

== a customer's shift holds no configuration
call 0 0 0 RegisterManagedResource {"name":"lb","availabilityZones":["az1","az2"]}
call 0 0 0 CreatePracticeRunConfiguration {"resourceIdentifier":"arn:arc:resource/0000000000000001","outcomeAlarms":[{"alarmIdentifier":"errors"}]}
call 0 0 0 StartZonalShift {"resourceIdentifier":"arn:arc:resource/0000000000000001","awayFrom":"az1","expiresIn":"1m","comment":""}
call 0 0 0 DeletePracticeRunConfiguration {"resourceIdentifier":"arn:arc:resource/0000000000000001"}
call 0 0 0 GetManagedResource {"resourceIdentifier":"arn:arc:resource/0000000000000001"}
----
slot 0 token 1 200 {"resourceIdentifier":"arn:arc:resource/0000000000000001"}
slot 1 token 2 200 {}
slot 2 token 3 200 {"awayFrom":"az1","comment":"","expiryTime":60000,"resourceIdentifier":"arn:arc:resource/0000000000000001","startTime":0,"status":"ACTIVE","zonalShiftId":"00000000-0000-0000-0000-000000000001"}
slot 3 token 4 200 {}
slot 4 token 5 200 {"appliedShift":{"awayFrom":"az1","kind":"CUSTOMER"},"availabilityZones":["az1","az2"],"name":"lb","resourceIdentifier":"arn:arc:resource/0000000000000001","zonalAutoshiftStatus":"DISABLED"}

== a pending run of another resource holds none either
call 0 0 0 RegisterManagedResource {"name":"lb","availabilityZones":["az1","az2"]}
call 0 0 0 RegisterManagedResource {"name":"api","availabilityZones":["az1","az2"]}
call 0 0 0 CreatePracticeRunConfiguration {"resourceIdentifier":"arn:arc:resource/0000000000000001","outcomeAlarms":[{"alarmIdentifier":"errors"}]}
call 0 0 0 CreatePracticeRunConfiguration {"resourceIdentifier":"arn:arc:resource/0000000000000002","outcomeAlarms":[{"alarmIdentifier":"errors"}]}
call 0 0 0 StartPracticeRun {"resourceIdentifier":"arn:arc:resource/0000000000000002","awayFrom":"az1","comment":""}
call 0 0 0 DeletePracticeRunConfiguration {"resourceIdentifier":"arn:arc:resource/0000000000000001"}
----
slot 0 token 1 200 {"resourceIdentifier":"arn:arc:resource/0000000000000001"}
slot 1 token 2 200 {"resourceIdentifier":"arn:arc:resource/0000000000000002"}
slot 2 token 3 200 {}
slot 3 token 4 200 {}
slot 4 token 5 200 {"awayFrom":"az1","comment":"","expiryTime":1800000,"practiceRunOutcome":"PENDING","resourceIdentifier":"arn:arc:resource/0000000000000002","startTime":0,"status":"ACTIVE","zonalShiftId":"00000000-0000-0000-0000-000000000001"}
slot 5 token 6 200 {}

== an update replaces what it names and leaves the rest
call 0 0 0 RegisterManagedResource {"name":"lb","availabilityZones":["az1","az2"]}
call 0 0 0 CreatePracticeRunConfiguration {"resourceIdentifier":"arn:arc:resource/0000000000000001","blockedDates":["1970-01-01"],"blockedWindows":["Thu:00:00-Thu:00:01"],"blockingAlarms":[{"alarmIdentifier":"deploy"}],"outcomeAlarms":[{"alarmIdentifier":"errors"}]}
call 0 0 0 SetAlarmState {"alarmIdentifier":"deploy","state":"ALARM"}
call 0 0 0 SetAlarmState {"alarmIdentifier":"errors","state":"ALARM"}
call 0 0 0 StartPracticeRun {"resourceIdentifier":"arn:arc:resource/0000000000000001","awayFrom":"az1","comment":""}
call 0 0 0 UpdatePracticeRunConfiguration {"resourceIdentifier":"arn:arc:resource/0000000000000001","blockedWindows":["Fri:00:00-Fri:00:01"]}
call 0 0 0 StartPracticeRun {"resourceIdentifier":"arn:arc:resource/0000000000000001","awayFrom":"az1","comment":""}
call 0 0 0 UpdatePracticeRunConfiguration {"resourceIdentifier":"arn:arc:resource/0000000000000001","blockedDates":["1970-01-02"]}
call 0 0 0 StartPracticeRun {"resourceIdentifier":"arn:arc:resource/0000000000000001","awayFrom":"az1","comment":""}
call 0 0 0 UpdatePracticeRunConfiguration {"resourceIdentifier":"arn:arc:resource/0000000000000001","blockingAlarms":[{"alarmIdentifier":"freeze"}]}
call 0 0 0 StartPracticeRun {"resourceIdentifier":"arn:arc:resource/0000000000000001","awayFrom":"az1","comment":""}
call 0 0 0 UpdatePracticeRunConfiguration {"resourceIdentifier":"arn:arc:resource/0000000000000001","outcomeAlarms":[{"alarmIdentifier":"slow"}]}
call 0 0 0 StartPracticeRun {"resourceIdentifier":"arn:arc:resource/0000000000000001","awayFrom":"az1","comment":""}
----
slot 0 token 1 200 {"resourceIdentifier":"arn:arc:resource/0000000000000001"}
slot 1 token 2 200 {}
slot 2 token 3 200 {}
slot 3 token 4 200 {}
slot 4 token 5 409 {"Cause":"BlockedDate","Reason":"Blocked","__type":"ConflictException"}
slot 5 token 6 200 {}
slot 6 token 7 409 {"Cause":"BlockedDate","Reason":"Blocked","__type":"ConflictException"}
slot 7 token 8 200 {}
slot 8 token 9 409 {"Cause":"BlockingAlarm","Reason":"Blocked","__type":"ConflictException"}
slot 9 token 10 200 {}
slot 10 token 11 409 {"Cause":"OutcomeAlarm","Reason":"Blocked","__type":"ConflictException"}
slot 11 token 12 200 {}
slot 12 token 13 200 {"awayFrom":"az1","comment":"","expiryTime":1800000,"practiceRunOutcome":"PENDING","resourceIdentifier":"arn:arc:resource/0000000000000001","startTime":0,"status":"ACTIVE","zonalShiftId":"00000000-0000-0000-0000-000000000001"}

== an empty list takes away what was there
call 0 0 0 RegisterManagedResource {"name":"lb","availabilityZones":["az1","az2"]}
call 0 0 0 CreatePracticeRunConfiguration {"resourceIdentifier":"arn:arc:resource/0000000000000001","blockedDates":["1970-01-01"],"blockedWindows":["Thu:00:00-Thu:00:01"],"blockingAlarms":[{"alarmIdentifier":"deploy"}],"outcomeAlarms":[{"alarmIdentifier":"errors"}]}
call 0 0 0 SetAlarmState {"alarmIdentifier":"deploy","state":"ALARM"}
call 0 0 0 StartPracticeRun {"resourceIdentifier":"arn:arc:resource/0000000000000001","awayFrom":"az1","comment":""}
call 0 0 0 UpdatePracticeRunConfiguration {"resourceIdentifier":"arn:arc:resource/0000000000000001","blockedDates":[]}
call 0 0 0 StartPracticeRun {"resourceIdentifier":"arn:arc:resource/0000000000000001","awayFrom":"az1","comment":""}
call 0 0 0 UpdatePracticeRunConfiguration {"resourceIdentifier":"arn:arc:resource/0000000000000001","blockedWindows":[]}
call 0 0 0 StartPracticeRun {"resourceIdentifier":"arn:arc:resource/0000000000000001","awayFrom":"az1","comment":""}
call 0 0 0 UpdatePracticeRunConfiguration {"resourceIdentifier":"arn:arc:resource/0000000000000001","blockingAlarms":[]}
call 0 0 0 StartPracticeRun {"resourceIdentifier":"arn:arc:resource/0000000000000001","awayFrom":"az1","comment":""}
----
slot 0 token 1 200 {"resourceIdentifier":"arn:arc:resource/0000000000000001"}
slot 1 token 2 200 {}
slot 2 token 3 200 {}
slot 3 token 4 409 {"Cause":"BlockedDate","Reason":"Blocked","__type":"ConflictException"}
slot 4 token 5 200 {}
slot 5 token 6 409 {"Cause":"BlockedWindow","Reason":"Blocked","__type":"ConflictException"}
slot 6 token 7 200 {}
slot 7 token 8 409 {"Cause":"BlockingAlarm","Reason":"Blocked","__type":"ConflictException"}
slot 8 token 9 200 {}
slot 9 token 10 200 {"awayFrom":"az1","comment":"","expiryTime":1800000,"practiceRunOutcome":"PENDING","resourceIdentifier":"arn:arc:resource/0000000000000001","startTime":0,"status":"ACTIVE","zonalShiftId":"00000000-0000-0000-0000-000000000001"}

== an update may name nothing
call 0 0 0 RegisterManagedResource {"name":"lb","availabilityZones":["az1","az2"]}
call 0 0 0 CreatePracticeRunConfiguration {"resourceIdentifier":"arn:arc:resource/0000000000000001","blockedDates":["1970-01-01"],"outcomeAlarms":[{"alarmIdentifier":"errors"}]}
call 0 0 0 UpdatePracticeRunConfiguration {"resourceIdentifier":"arn:arc:resource/0000000000000001"}
call 0 0 0 StartPracticeRun {"resourceIdentifier":"arn:arc:resource/0000000000000001","awayFrom":"az1","comment":""}
----
slot 0 token 1 200 {"resourceIdentifier":"arn:arc:resource/0000000000000001"}
slot 1 token 2 200 {}
slot 2 token 3 200 {}
slot 3 token 4 409 {"Cause":"BlockedDate","Reason":"Blocked","__type":"ConflictException"}

== null leaves what stands, as an absent list does
call 0 0 0 RegisterManagedResource {"name":"lb","availabilityZones":["az1","az2"]}
call 0 0 0 CreatePracticeRunConfiguration {"resourceIdentifier":"arn:arc:resource/0000000000000001","blockedDates":["1970-01-01"],"outcomeAlarms":[{"alarmIdentifier":"errors"}]}
call 0 0 0 UpdatePracticeRunConfiguration {"resourceIdentifier":"arn:arc:resource/0000000000000001","blockedDates":null,"outcomeAlarms":null}
call 0 0 0 StartPracticeRun {"resourceIdentifier":"arn:arc:resource/0000000000000001","awayFrom":"az1","comment":""}
----
slot 0 token 1 200 {"resourceIdentifier":"arn:arc:resource/0000000000000001"}
slot 1 token 2 200 {}
slot 2 token 3 200 {}
slot 3 token 4 409 {"Cause":"BlockedDate","Reason":"Blocked","__type":"ConflictException"}

== an update replaces a list, and doesn't add to it
call 0 0 0 RegisterManagedResource {"name":"lb","availabilityZones":["az1","az2"]}
call 0 0 0 CreatePracticeRunConfiguration {"resourceIdentifier":"arn:arc:resource/0000000000000001","outcomeAlarms":[{"alarmIdentifier":"a"},{"alarmIdentifier":"b"}]}
call 0 0 0 UpdatePracticeRunConfiguration {"resourceIdentifier":"arn:arc:resource/0000000000000001","outcomeAlarms":[{"alarmIdentifier":"c"}]}
call 0 0 0 SetAlarmState {"alarmIdentifier":"a","state":"ALARM"}
call 0 0 0 StartPracticeRun {"resourceIdentifier":"arn:arc:resource/0000000000000001","awayFrom":"az1","comment":""}
call 0 1 0 SetAlarmState {"alarmIdentifier":"a","state":"ALARM"}
call 0 1 0 ListZonalShifts
call 0 1 0 SetAlarmState {"alarmIdentifier":"c","state":"ALARM"}
call 0 1 0 ListZonalShifts
----
slot 0 token 1 200 {"resourceIdentifier":"arn:arc:resource/0000000000000001"}
slot 1 token 2 200 {}
slot 2 token 3 200 {}
slot 3 token 4 200 {}
slot 4 token 5 200 {"awayFrom":"az1","comment":"","expiryTime":1800000,"practiceRunOutcome":"PENDING","resourceIdentifier":"arn:arc:resource/0000000000000001","startTime":0,"status":"ACTIVE","zonalShiftId":"00000000-0000-0000-0000-000000000001"}
slot 5 token 6 200 {}
slot 6 token 7 200 {"items":[{"awayFrom":"az1","comment":"","expiryTime":1800000,"practiceRunOutcome":"PENDING","resourceIdentifier":"arn:arc:resource/0000000000000001","startTime":0,"status":"ACTIVE","zonalShiftId":"00000000-0000-0000-0000-000000000001"}]}
slot 7 token 8 200 {}
slot 8 token 9 200 {"items":[{"awayFrom":"az1","comment":"","expiryTime":1800000,"practiceRunOutcome":"FAILED","resourceIdentifier":"arn:arc:resource/0000000000000001","startTime":0,"status":"CANCELED","zonalShiftId":"00000000-0000-0000-0000-000000000001"}]}

== an update during a run blocks the next one alone
call 0 0 0 RegisterManagedResource {"name":"lb","availabilityZones":["az1","az2"]}
call 0 0 0 CreatePracticeRunConfiguration {"resourceIdentifier":"arn:arc:resource/0000000000000001","outcomeAlarms":[{"alarmIdentifier":"errors"}]}
call 0 0 0 StartPracticeRun {"resourceIdentifier":"arn:arc:resource/0000000000000001","awayFrom":"az1","comment":""}
call 0 0 0 UpdatePracticeRunConfiguration {"resourceIdentifier":"arn:arc:resource/0000000000000001","blockedDates":["1970-01-01"],"blockedWindows":["Thu:00:00-Thu:12:00"]}
call 0 1 0 GetManagedResource {"resourceIdentifier":"arn:arc:resource/0000000000000001"}
call 0 1800000 0 ListZonalShifts
call 0 1800000 0 StartPracticeRun {"resourceIdentifier":"arn:arc:resource/0000000000000001","awayFrom":"az1","comment":""}
----
slot 0 token 1 200 {"resourceIdentifier":"arn:arc:resource/0000000000000001"}
slot 1 token 2 200 {}
slot 2 token 3 200 {"awayFrom":"az1","comment":"","expiryTime":1800000,"practiceRunOutcome":"PENDING","resourceIdentifier":"arn:arc:resource/0000000000000001","startTime":0,"status":"ACTIVE","zonalShiftId":"00000000-0000-0000-0000-000000000001"}
slot 3 token 4 200 {}
slot 4 token 5 200 {"appliedShift":{"awayFrom":"az1","kind":"PRACTICE_RUN"},"availabilityZones":["az1","az2"],"name":"lb","resourceIdentifier":"arn:arc:resource/0000000000000001","zonalAutoshiftStatus":"DISABLED"}
slot 5 token 6 200 {"items":[{"awayFrom":"az1","comment":"","expiryTime":1800000,"practiceRunOutcome":"SUCCEEDED","resourceIdentifier":"arn:arc:resource/0000000000000001","startTime":0,"status":"EXPIRED","zonalShiftId":"00000000-0000-0000-0000-000000000001"}]}
slot 6 token 7 409 {"Cause":"BlockedDate","Reason":"Blocked","__type":"ConflictException"}

== a configuration has 15 dates, 15 windows and 4 alarms of each kind
call 0 0 0 RegisterManagedResource {"name":"lb","availabilityZones":["az1","az2"]}
call 0 0 0 CreatePracticeRunConfiguration {"resourceIdentifier":"arn:arc:resource/0000000000000001","blockedDates":["1970-02-01","1970-02-02","1970-02-03","1970-02-04","1970-02-05","1970-02-06","1970-02-07","1970-02-08","1970-02-09","1970-02-10","1970-02-11","1970-02-12","1970-02-13","1970-02-14","1970-02-15"],"blockedWindows":["Mon:00:00-Mon:00:30","Mon:01:00-Mon:01:30","Mon:02:00-Mon:02:30","Mon:03:00-Mon:03:30","Mon:04:00-Mon:04:30","Mon:05:00-Mon:05:30","Mon:06:00-Mon:06:30","Mon:07:00-Mon:07:30","Mon:08:00-Mon:08:30","Mon:09:00-Mon:09:30","Mon:10:00-Mon:10:30","Mon:11:00-Mon:11:30","Mon:12:00-Mon:12:30","Mon:13:00-Mon:13:30","Mon:14:00-Mon:14:30"],"blockingAlarms":[{"alarmIdentifier":"a"},{"alarmIdentifier":"b"},{"alarmIdentifier":"c"},{"alarmIdentifier":"d"}],"outcomeAlarms":[{"alarmIdentifier":"e"},{"alarmIdentifier":"f"},{"alarmIdentifier":"g"},{"alarmIdentifier":"h"}]}
call 0 0 0 SetAlarmState {"alarmIdentifier":"d","state":"ALARM"}
call 0 0 0 StartPracticeRun {"resourceIdentifier":"arn:arc:resource/0000000000000001","awayFrom":"az1","comment":""}
call 0 0 0 SetAlarmState {"alarmIdentifier":"d","state":"OK"}
call 0 0 0 SetAlarmState {"alarmIdentifier":"h","state":"ALARM"}
call 0 0 0 StartPracticeRun {"resourceIdentifier":"arn:arc:resource/0000000000000001","awayFrom":"az1","comment":""}
call 0 0 0 SetAlarmState {"alarmIdentifier":"h","state":"OK"}
# the last window, and the last date
call 0 396000000 0 StartPracticeRun {"resourceIdentifier":"arn:arc:resource/0000000000000001","awayFrom":"az1","comment":""}
call 0 3888000000 0 StartPracticeRun {"resourceIdentifier":"arn:arc:resource/0000000000000001","awayFrom":"az1","comment":""}
----
slot 0 token 1 200 {"resourceIdentifier":"arn:arc:resource/0000000000000001"}
slot 1 token 2 200 {}
slot 2 token 3 200 {}
slot 3 token 4 409 {"Cause":"BlockingAlarm","Reason":"Blocked","__type":"ConflictException"}
slot 4 token 5 200 {}
slot 5 token 6 200 {}
slot 6 token 7 409 {"Cause":"OutcomeAlarm","Reason":"Blocked","__type":"ConflictException"}
slot 7 token 8 200 {}
slot 8 token 9 409 {"Cause":"BlockedWindow","Reason":"Blocked","__type":"ConflictException"}
slot 9 token 10 409 {"Cause":"BlockedDate","Reason":"Blocked","__type":"ConflictException"}

== 16 blocked dates are too many
call 0 0 0 CreatePracticeRunConfiguration {"resourceIdentifier":"arn:arc:resource/0000000000000001","blockedDates":["1970-02-01","1970-02-02","1970-02-03","1970-02-04","1970-02-05","1970-02-06","1970-02-07","1970-02-08","1970-02-09","1970-02-10","1970-02-11","1970-02-12","1970-02-13","1970-02-14","1970-02-15","1970-02-16"],"outcomeAlarms":[{"alarmIdentifier":"errors"}]}
---- status 6
script line 1: TooManyEntries

== 16 blocked windows are too many
call 0 0 0 CreatePracticeRunConfiguration {"resourceIdentifier":"arn:arc:resource/0000000000000001","blockedWindows":["Mon:00:00-Mon:00:30","Mon:01:00-Mon:01:30","Mon:02:00-Mon:02:30","Mon:03:00-Mon:03:30","Mon:04:00-Mon:04:30","Mon:05:00-Mon:05:30","Mon:06:00-Mon:06:30","Mon:07:00-Mon:07:30","Mon:08:00-Mon:08:30","Mon:09:00-Mon:09:30","Mon:10:00-Mon:10:30","Mon:11:00-Mon:11:30","Mon:12:00-Mon:12:30","Mon:13:00-Mon:13:30","Mon:14:00-Mon:14:30","Mon:15:00-Mon:15:30"],"outcomeAlarms":[{"alarmIdentifier":"errors"}]}
---- status 6
script line 1: TooManyEntries

== five blocking alarms are too many
call 0 0 0 CreatePracticeRunConfiguration {"resourceIdentifier":"arn:arc:resource/0000000000000001","blockingAlarms":[{"alarmIdentifier":"a"},{"alarmIdentifier":"b"},{"alarmIdentifier":"c"},{"alarmIdentifier":"d"},{"alarmIdentifier":"e"}],"outcomeAlarms":[{"alarmIdentifier":"errors"}]}
---- status 6
script line 1: TooManyEntries

== five outcome alarms are too many
call 0 0 0 CreatePracticeRunConfiguration {"resourceIdentifier":"arn:arc:resource/0000000000000001","outcomeAlarms":[{"alarmIdentifier":"a"},{"alarmIdentifier":"b"},{"alarmIdentifier":"c"},{"alarmIdentifier":"d"},{"alarmIdentifier":"e"}]}
---- status 6
script line 1: TooManyEntries

== a configuration has an outcome alarm
call 0 0 0 CreatePracticeRunConfiguration {"resourceIdentifier":"arn:arc:resource/0000000000000001","outcomeAlarms":[]}
---- status 6
script line 1: EmptyEntries

== its outcome alarms can't be left out
call 0 0 0 CreatePracticeRunConfiguration {"resourceIdentifier":"arn:arc:resource/0000000000000001"}
---- status 6
script line 1: MissingMember

== an update leaves an outcome alarm too
call 0 0 0 UpdatePracticeRunConfiguration {"resourceIdentifier":"arn:arc:resource/0000000000000001","outcomeAlarms":[]}
---- status 6
script line 1: EmptyEntries

== dates, windows and alarms may repeat
call 0 0 0 RegisterManagedResource {"name":"lb","availabilityZones":["az1","az2"]}
call 0 0 0 CreatePracticeRunConfiguration {"resourceIdentifier":"arn:arc:resource/0000000000000001","blockedDates":["1970-01-02","1970-01-02"],"blockedWindows":["Fri:00:00-Fri:00:01","Fri:00:00-Fri:00:01"],"blockingAlarms":[{"alarmIdentifier":"a"},{"alarmIdentifier":"a"}],"outcomeAlarms":[{"alarmIdentifier":"a"},{"alarmIdentifier":"a"}]}
call 0 0 0 StartPracticeRun {"resourceIdentifier":"arn:arc:resource/0000000000000001","awayFrom":"az1","comment":""}
call 0 0 0 SetAlarmState {"alarmIdentifier":"a","state":"ALARM"}
call 0 0 0 ListZonalShifts
----
slot 0 token 1 200 {"resourceIdentifier":"arn:arc:resource/0000000000000001"}
slot 1 token 2 200 {}
slot 2 token 3 200 {"awayFrom":"az1","comment":"","expiryTime":1800000,"practiceRunOutcome":"PENDING","resourceIdentifier":"arn:arc:resource/0000000000000001","startTime":0,"status":"ACTIVE","zonalShiftId":"00000000-0000-0000-0000-000000000001"}
slot 3 token 4 200 {}
slot 4 token 5 200 {"items":[{"awayFrom":"az1","comment":"","expiryTime":1800000,"practiceRunOutcome":"FAILED","resourceIdentifier":"arn:arc:resource/0000000000000001","startTime":0,"status":"CANCELED","zonalShiftId":"00000000-0000-0000-0000-000000000001"}]}
