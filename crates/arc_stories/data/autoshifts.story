# Autoshifts: zones that the provider takes away, and the resources that follow.

== a new resource follows no autoshift
call 0 0 0 RegisterManagedResource {"name":"lb","availabilityZones":["az1","az2"]}
call 0 0 0 GetManagedResource {"resourceIdentifier":"arn:arc:resource/0000000000000001"}
call 0 0 0 StartAutoshift {"awayFrom":"az1"}
call 0 0 0 GetManagedResource {"resourceIdentifier":"arn:arc:resource/0000000000000001"}
----
slot 0 token 1 200 {"resourceIdentifier":"arn:arc:resource/0000000000000001"}
slot 1 token 2 200 {"appliedShift":null,"availabilityZones":["az1","az2"],"name":"lb","resourceIdentifier":"arn:arc:resource/0000000000000001","zonalAutoshiftStatus":"DISABLED"}
slot 2 token 3 200 {}
slot 3 token 4 200 {"appliedShift":null,"availabilityZones":["az1","az2"],"name":"lb","resourceIdentifier":"arn:arc:resource/0000000000000001","zonalAutoshiftStatus":"DISABLED"}

== an enabled resource follows the autoshift of its zone until it ends
call 0 0 0 RegisterManagedResource {"name":"lb","availabilityZones":["az1","az2"]}
call 0 0 0 CreatePracticeRunConfiguration {"resourceIdentifier":"arn:arc:resource/0000000000000001","outcomeAlarms":[{"alarmIdentifier":"errors"}]}
call 0 0 0 UpdateZonalAutoshiftConfiguration {"resourceIdentifier":"arn:arc:resource/0000000000000001","zonalAutoshiftStatus":"ENABLED"}
call 0 0 0 GetManagedResource {"resourceIdentifier":"arn:arc:resource/0000000000000001"}
call 0 0 0 StartAutoshift {"awayFrom":"az1"}
call 0 0 0 GetManagedResource {"resourceIdentifier":"arn:arc:resource/0000000000000001"}
call 0 0 0 EndAutoshift {"awayFrom":"az1"}
call 0 0 0 GetManagedResource {"resourceIdentifier":"arn:arc:resource/0000000000000001"}
----
slot 0 token 1 200 {"resourceIdentifier":"arn:arc:resource/0000000000000001"}
slot 1 token 2 200 {}
slot 2 token 3 200 {"resourceIdentifier":"arn:arc:resource/0000000000000001","zonalAutoshiftStatus":"ENABLED"}
slot 3 token 4 200 {"appliedShift":null,"availabilityZones":["az1","az2"],"name":"lb","resourceIdentifier":"arn:arc:resource/0000000000000001","zonalAutoshiftStatus":"ENABLED"}
slot 4 token 5 200 {}
slot 5 token 6 200 {"appliedShift":{"awayFrom":"az1","kind":"AUTOSHIFT"},"availabilityZones":["az1","az2"],"name":"lb","resourceIdentifier":"arn:arc:resource/0000000000000001","zonalAutoshiftStatus":"ENABLED"}
slot 6 token 7 200 {}
slot 7 token 8 200 {"appliedShift":null,"availabilityZones":["az1","az2"],"name":"lb","resourceIdentifier":"arn:arc:resource/0000000000000001","zonalAutoshiftStatus":"ENABLED"}

== a resource follows no autoshift of a zone that it lacks
call 0 0 0 RegisterManagedResource {"name":"lb","availabilityZones":["az1","az2"]}
call 0 0 0 CreatePracticeRunConfiguration {"resourceIdentifier":"arn:arc:resource/0000000000000001","outcomeAlarms":[{"alarmIdentifier":"errors"}]}
call 0 0 0 UpdateZonalAutoshiftConfiguration {"resourceIdentifier":"arn:arc:resource/0000000000000001","zonalAutoshiftStatus":"ENABLED"}
call 0 0 0 StartAutoshift {"awayFrom":"az3"}
call 0 0 0 GetManagedResource {"resourceIdentifier":"arn:arc:resource/0000000000000001"}
----
slot 0 token 1 200 {"resourceIdentifier":"arn:arc:resource/0000000000000001"}
slot 1 token 2 200 {}
slot 2 token 3 200 {"resourceIdentifier":"arn:arc:resource/0000000000000001","zonalAutoshiftStatus":"ENABLED"}
slot 3 token 4 200 {}
slot 4 token 5 200 {"appliedShift":null,"availabilityZones":["az1","az2"],"name":"lb","resourceIdentifier":"arn:arc:resource/0000000000000001","zonalAutoshiftStatus":"ENABLED"}

== an autoshift applies once it is enabled, and no more once it is disabled
call 0 0 0 RegisterManagedResource {"name":"lb","availabilityZones":["az1","az2"]}
call 0 0 0 CreatePracticeRunConfiguration {"resourceIdentifier":"arn:arc:resource/0000000000000001","outcomeAlarms":[{"alarmIdentifier":"errors"}]}
call 0 0 0 StartAutoshift {"awayFrom":"az2"}
call 0 0 0 GetManagedResource {"resourceIdentifier":"arn:arc:resource/0000000000000001"}
call 0 0 0 UpdateZonalAutoshiftConfiguration {"resourceIdentifier":"arn:arc:resource/0000000000000001","zonalAutoshiftStatus":"ENABLED"}
call 0 0 0 GetManagedResource {"resourceIdentifier":"arn:arc:resource/0000000000000001"}
call 0 0 0 UpdateZonalAutoshiftConfiguration {"resourceIdentifier":"arn:arc:resource/0000000000000001","zonalAutoshiftStatus":"DISABLED"}
call 0 0 0 GetManagedResource {"resourceIdentifier":"arn:arc:resource/0000000000000001"}
----
slot 0 token 1 200 {"resourceIdentifier":"arn:arc:resource/0000000000000001"}
slot 1 token 2 200 {}
slot 2 token 3 200 {}
slot 3 token 4 200 {"appliedShift":null,"availabilityZones":["az1","az2"],"name":"lb","resourceIdentifier":"arn:arc:resource/0000000000000001","zonalAutoshiftStatus":"DISABLED"}
slot 4 token 5 200 {"resourceIdentifier":"arn:arc:resource/0000000000000001","zonalAutoshiftStatus":"ENABLED"}
slot 5 token 6 200 {"appliedShift":{"awayFrom":"az2","kind":"AUTOSHIFT"},"availabilityZones":["az1","az2"],"name":"lb","resourceIdentifier":"arn:arc:resource/0000000000000001","zonalAutoshiftStatus":"ENABLED"}
slot 6 token 7 200 {"resourceIdentifier":"arn:arc:resource/0000000000000001","zonalAutoshiftStatus":"DISABLED"}
slot 7 token 8 200 {"appliedShift":null,"availabilityZones":["az1","az2"],"name":"lb","resourceIdentifier":"arn:arc:resource/0000000000000001","zonalAutoshiftStatus":"DISABLED"}

== an autoshift has no end of its own
call 0 0 0 RegisterManagedResource {"name":"lb","availabilityZones":["az1","az2"]}
call 0 0 0 CreatePracticeRunConfiguration {"resourceIdentifier":"arn:arc:resource/0000000000000001","outcomeAlarms":[{"alarmIdentifier":"errors"}]}
call 0 0 0 UpdateZonalAutoshiftConfiguration {"resourceIdentifier":"arn:arc:resource/0000000000000001","zonalAutoshiftStatus":"ENABLED"}
call 0 0 0 StartAutoshift {"awayFrom":"az1"}
call 0 253402300799999 0 GetManagedResource {"resourceIdentifier":"arn:arc:resource/0000000000000001"}
----
slot 0 token 1 200 {"resourceIdentifier":"arn:arc:resource/0000000000000001"}
slot 1 token 2 200 {}
slot 2 token 3 200 {"resourceIdentifier":"arn:arc:resource/0000000000000001","zonalAutoshiftStatus":"ENABLED"}
slot 3 token 4 200 {}
slot 4 token 5 200 {"appliedShift":{"awayFrom":"az1","kind":"AUTOSHIFT"},"availabilityZones":["az1","az2"],"name":"lb","resourceIdentifier":"arn:arc:resource/0000000000000001","zonalAutoshiftStatus":"ENABLED"}

== a zone is in autoshift once
call 0 0 0 StartAutoshift {"awayFrom":"az1"}
call 0 0 0 StartAutoshift {"awayFrom":"az1"}
call 0 0 0 EndAutoshift {"awayFrom":"az1"}
call 0 0 0 StartAutoshift {"awayFrom":"az1"}
----
slot 0 token 1 200 {}
slot 1 token 2 409 {"Reason":"Started","Resource":"az1","__type":"ConflictException"}
slot 2 token 3 200 {}
slot 3 token 4 200 {}

== an autoshift that isn't there doesn't end
call 0 0 0 EndAutoshift {"awayFrom":"az1"}
call 0 0 0 StartAutoshift {"awayFrom":"az1"}
call 0 0 0 EndAutoshift {"awayFrom":"az2"}
call 0 0 0 EndAutoshift {"awayFrom":"az1"}
call 0 0 0 EndAutoshift {"awayFrom":"az1"}
----
slot 0 token 1 404 {"Reason":"NotFound","Resource":"az1","__type":"ResourceNotFoundException"}
slot 1 token 2 200 {}
slot 2 token 3 404 {"Reason":"NotFound","Resource":"az2","__type":"ResourceNotFoundException"}
slot 3 token 4 200 {}
slot 4 token 5 404 {"Reason":"NotFound","Resource":"az1","__type":"ResourceNotFoundException"}

== 16 zones are in autoshift at most
loop n 0 15
call 0 0 0 StartAutoshift {"awayFrom":"az{n}"}
endloop
# a zone that is in autoshift comes before the limit
call 0 0 0 StartAutoshift {"awayFrom":"az3"}
call 0 0 0 StartAutoshift {"awayFrom":"az15"}
call 0 0 0 StartAutoshift {"awayFrom":"az16"}
call 0 0 0 EndAutoshift {"awayFrom":"az0"}
call 0 0 0 EndAutoshift {"awayFrom":"az0"}
call 0 0 0 StartAutoshift {"awayFrom":"az16"}
call 0 0 0 StartAutoshift {"awayFrom":"az0"}
----
loop n 0 15
slot {n} token {n+1} 200 {}
endloop
slot 16 token 17 409 {"Reason":"Started","Resource":"az3","__type":"ConflictException"}
slot 17 token 18 409 {"Reason":"Started","Resource":"az15","__type":"ConflictException"}
slot 18 token 19 402 {"Count":16,"Reason":"Limit","__type":"ServiceLimitExceededException"}
slot 19 token 20 200 {}
slot 20 token 21 404 {"Reason":"NotFound","Resource":"az0","__type":"ResourceNotFoundException"}
slot 21 token 22 200 {}
slot 22 token 23 402 {"Count":16,"Reason":"Limit","__type":"ServiceLimitExceededException"}

== upper case is another zone
call 0 0 0 RegisterManagedResource {"name":"lb","availabilityZones":["az1","az2"]}
call 0 0 0 CreatePracticeRunConfiguration {"resourceIdentifier":"arn:arc:resource/0000000000000001","outcomeAlarms":[{"alarmIdentifier":"errors"}]}
call 0 0 0 UpdateZonalAutoshiftConfiguration {"resourceIdentifier":"arn:arc:resource/0000000000000001","zonalAutoshiftStatus":"ENABLED"}
call 0 0 0 StartAutoshift {"awayFrom":"AZ1"}
call 0 0 0 StartAutoshift {"awayFrom":"az1"}
call 0 0 0 EndAutoshift {"awayFrom":"AZ1"}
call 0 0 0 GetManagedResource {"resourceIdentifier":"arn:arc:resource/0000000000000001"}
----
slot 0 token 1 200 {"resourceIdentifier":"arn:arc:resource/0000000000000001"}
slot 1 token 2 200 {}
slot 2 token 3 200 {"resourceIdentifier":"arn:arc:resource/0000000000000001","zonalAutoshiftStatus":"ENABLED"}
slot 3 token 4 200 {}
slot 4 token 5 200 {}
slot 5 token 6 200 {}
slot 6 token 7 200 {"appliedShift":{"awayFrom":"az1","kind":"AUTOSHIFT"},"availabilityZones":["az1","az2"],"name":"lb","resourceIdentifier":"arn:arc:resource/0000000000000001","zonalAutoshiftStatus":"ENABLED"}

== a zone needs no resource
call 0 0 0 StartAutoshift {"awayFrom":"az1"}
call 0 0 0 RegisterManagedResource {"name":"lb","availabilityZones":["az1","az2"]}
call 0 0 0 CreatePracticeRunConfiguration {"resourceIdentifier":"arn:arc:resource/0000000000000001","outcomeAlarms":[{"alarmIdentifier":"errors"}]}
call 0 0 0 UpdateZonalAutoshiftConfiguration {"resourceIdentifier":"arn:arc:resource/0000000000000001","zonalAutoshiftStatus":"ENABLED"}
call 0 0 0 GetManagedResource {"resourceIdentifier":"arn:arc:resource/0000000000000001"}
----
slot 0 token 1 200 {}
slot 1 token 2 200 {"resourceIdentifier":"arn:arc:resource/0000000000000001"}
slot 2 token 3 200 {}
slot 3 token 4 200 {"resourceIdentifier":"arn:arc:resource/0000000000000001","zonalAutoshiftStatus":"ENABLED"}
slot 4 token 5 200 {"appliedShift":{"awayFrom":"az1","kind":"AUTOSHIFT"},"availabilityZones":["az1","az2"],"name":"lb","resourceIdentifier":"arn:arc:resource/0000000000000001","zonalAutoshiftStatus":"ENABLED"}

== an autoshift moves all enabled resources that have the zone
call 0 0 0 RegisterManagedResource {"name":"lb","availabilityZones":["az1","az2"]}
call 0 0 0 CreatePracticeRunConfiguration {"resourceIdentifier":"arn:arc:resource/0000000000000001","outcomeAlarms":[{"alarmIdentifier":"errors"}]}
call 0 0 0 UpdateZonalAutoshiftConfiguration {"resourceIdentifier":"arn:arc:resource/0000000000000001","zonalAutoshiftStatus":"ENABLED"}
call 0 0 0 RegisterManagedResource {"name":"api","availabilityZones":["az1","az2"]}
call 0 0 0 CreatePracticeRunConfiguration {"resourceIdentifier":"arn:arc:resource/0000000000000002","outcomeAlarms":[{"alarmIdentifier":"errors"}]}
call 0 0 0 RegisterManagedResource {"name":"web","availabilityZones":["az2"]}
call 0 0 0 CreatePracticeRunConfiguration {"resourceIdentifier":"arn:arc:resource/0000000000000003","outcomeAlarms":[{"alarmIdentifier":"errors"}]}
call 0 0 0 UpdateZonalAutoshiftConfiguration {"resourceIdentifier":"arn:arc:resource/0000000000000003","zonalAutoshiftStatus":"ENABLED"}
call 0 0 0 RegisterManagedResource {"name":"db","availabilityZones":["az2","az1"]}
call 0 0 0 CreatePracticeRunConfiguration {"resourceIdentifier":"arn:arc:resource/0000000000000004","outcomeAlarms":[{"alarmIdentifier":"errors"}]}
call 0 0 0 UpdateZonalAutoshiftConfiguration {"resourceIdentifier":"arn:arc:resource/0000000000000004","zonalAutoshiftStatus":"ENABLED"}
call 0 0 0 StartAutoshift {"awayFrom":"az1"}
call 0 0 0 GetManagedResource {"resourceIdentifier":"arn:arc:resource/0000000000000001"}
call 0 0 0 GetManagedResource {"resourceIdentifier":"arn:arc:resource/0000000000000002"}
call 0 0 0 GetManagedResource {"resourceIdentifier":"arn:arc:resource/0000000000000003"}
call 0 0 0 GetManagedResource {"resourceIdentifier":"arn:arc:resource/0000000000000004"}
----
slot 0 token 1 200 {"resourceIdentifier":"arn:arc:resource/0000000000000001"}
slot 1 token 2 200 {}
slot 2 token 3 200 {"resourceIdentifier":"arn:arc:resource/0000000000000001","zonalAutoshiftStatus":"ENABLED"}
slot 3 token 4 200 {"resourceIdentifier":"arn:arc:resource/0000000000000002"}
slot 4 token 5 200 {}
slot 5 token 6 200 {"resourceIdentifier":"arn:arc:resource/0000000000000003"}
slot 6 token 7 200 {}
slot 7 token 8 200 {"resourceIdentifier":"arn:arc:resource/0000000000000003","zonalAutoshiftStatus":"ENABLED"}
slot 8 token 9 200 {"resourceIdentifier":"arn:arc:resource/0000000000000004"}
slot 9 token 10 200 {}
slot 10 token 11 200 {"resourceIdentifier":"arn:arc:resource/0000000000000004","zonalAutoshiftStatus":"ENABLED"}
slot 11 token 12 200 {}
slot 12 token 13 200 {"appliedShift":{"awayFrom":"az1","kind":"AUTOSHIFT"},"availabilityZones":["az1","az2"],"name":"lb","resourceIdentifier":"arn:arc:resource/0000000000000001","zonalAutoshiftStatus":"ENABLED"}
slot 13 token 14 200 {"appliedShift":null,"availabilityZones":["az1","az2"],"name":"api","resourceIdentifier":"arn:arc:resource/0000000000000002","zonalAutoshiftStatus":"DISABLED"}
slot 14 token 15 200 {"appliedShift":null,"availabilityZones":["az2"],"name":"web","resourceIdentifier":"arn:arc:resource/0000000000000003","zonalAutoshiftStatus":"ENABLED"}
slot 15 token 16 200 {"appliedShift":{"awayFrom":"az1","kind":"AUTOSHIFT"},"availabilityZones":["az2","az1"],"name":"db","resourceIdentifier":"arn:arc:resource/0000000000000004","zonalAutoshiftStatus":"ENABLED"}

== a resource is enabled once its runs are configured
call 0 0 0 UpdateZonalAutoshiftConfiguration {"resourceIdentifier":"arn:arc:resource/0000000000000001","zonalAutoshiftStatus":"ENABLED"}
call 0 0 0 UpdateZonalAutoshiftConfiguration {"resourceIdentifier":"arn:arc:resource/0000000000000001","zonalAutoshiftStatus":"DISABLED"}
call 0 0 0 RegisterManagedResource {"name":"lb","availabilityZones":["az1","az2"]}
call 0 0 0 UpdateZonalAutoshiftConfiguration {"resourceIdentifier":"arn:arc:resource/0000000000000001","zonalAutoshiftStatus":"ENABLED"}
call 0 0 0 CreatePracticeRunConfiguration {"resourceIdentifier":"arn:arc:resource/0000000000000001","outcomeAlarms":[{"alarmIdentifier":"errors"}]}
call 0 0 0 UpdateZonalAutoshiftConfiguration {"resourceIdentifier":"arn:arc:resource/0000000000000001","zonalAutoshiftStatus":"ENABLED"}
call 0 0 0 GetManagedResource {"resourceIdentifier":"arn:arc:resource/0000000000000001"}
----
slot 0 token 1 404 {"Reason":"NotFound","Resource":"arn:arc:resource/0000000000000001","__type":"ResourceNotFoundException"}
slot 1 token 2 404 {"Reason":"NotFound","Resource":"arn:arc:resource/0000000000000001","__type":"ResourceNotFoundException"}
slot 2 token 3 200 {"resourceIdentifier":"arn:arc:resource/0000000000000001"}
slot 3 token 4 404 {"Reason":"NotConfigured","Resource":"arn:arc:resource/0000000000000001","__type":"ResourceNotFoundException"}
slot 4 token 5 200 {}
slot 5 token 6 200 {"resourceIdentifier":"arn:arc:resource/0000000000000001","zonalAutoshiftStatus":"ENABLED"}
slot 6 token 7 200 {"appliedShift":null,"availabilityZones":["az1","az2"],"name":"lb","resourceIdentifier":"arn:arc:resource/0000000000000001","zonalAutoshiftStatus":"ENABLED"}

== a resource is disabled without a configuration too
call 0 0 0 RegisterManagedResource {"name":"lb","availabilityZones":["az1","az2"]}
call 0 0 0 UpdateZonalAutoshiftConfiguration {"resourceIdentifier":"arn:arc:resource/0000000000000001","zonalAutoshiftStatus":"DISABLED"}
call 0 0 0 GetManagedResource {"resourceIdentifier":"arn:arc:resource/0000000000000001"}
----
slot 0 token 1 200 {"resourceIdentifier":"arn:arc:resource/0000000000000001"}
slot 1 token 2 200 {"resourceIdentifier":"arn:arc:resource/0000000000000001","zonalAutoshiftStatus":"DISABLED"}
slot 2 token 3 200 {"appliedShift":null,"availabilityZones":["az1","az2"],"name":"lb","resourceIdentifier":"arn:arc:resource/0000000000000001","zonalAutoshiftStatus":"DISABLED"}

== what is enabled may be enabled again, and what is disabled disabled
call 0 0 0 RegisterManagedResource {"name":"lb","availabilityZones":["az1","az2"]}
call 0 0 0 CreatePracticeRunConfiguration {"resourceIdentifier":"arn:arc:resource/0000000000000001","outcomeAlarms":[{"alarmIdentifier":"errors"}]}
call 0 0 0 UpdateZonalAutoshiftConfiguration {"resourceIdentifier":"arn:arc:resource/0000000000000001","zonalAutoshiftStatus":"ENABLED"}
call 0 0 0 UpdateZonalAutoshiftConfiguration {"resourceIdentifier":"arn:arc:resource/0000000000000001","zonalAutoshiftStatus":"ENABLED"}
call 0 0 0 UpdateZonalAutoshiftConfiguration {"resourceIdentifier":"arn:arc:resource/0000000000000001","zonalAutoshiftStatus":"DISABLED"}
call 0 0 0 UpdateZonalAutoshiftConfiguration {"resourceIdentifier":"arn:arc:resource/0000000000000001","zonalAutoshiftStatus":"DISABLED"}
call 0 0 0 GetManagedResource {"resourceIdentifier":"arn:arc:resource/0000000000000001"}
----
slot 0 token 1 200 {"resourceIdentifier":"arn:arc:resource/0000000000000001"}
slot 1 token 2 200 {}
slot 2 token 3 200 {"resourceIdentifier":"arn:arc:resource/0000000000000001","zonalAutoshiftStatus":"ENABLED"}
slot 3 token 4 200 {"resourceIdentifier":"arn:arc:resource/0000000000000001","zonalAutoshiftStatus":"ENABLED"}
slot 4 token 5 200 {"resourceIdentifier":"arn:arc:resource/0000000000000001","zonalAutoshiftStatus":"DISABLED"}
slot 5 token 6 200 {"resourceIdentifier":"arn:arc:resource/0000000000000001","zonalAutoshiftStatus":"DISABLED"}
slot 6 token 7 200 {"appliedShift":null,"availabilityZones":["az1","az2"],"name":"lb","resourceIdentifier":"arn:arc:resource/0000000000000001","zonalAutoshiftStatus":"DISABLED"}

== a status is ENABLED or DISABLED
call 0 0 0 UpdateZonalAutoshiftConfiguration {"resourceIdentifier":"arn:arc:resource/0000000000000001","zonalAutoshiftStatus":"ACTIVE"}
---- status 6
script line 1: BadStatus

== a status of autoshift is in upper case
call 0 0 0 UpdateZonalAutoshiftConfiguration {"resourceIdentifier":"arn:arc:resource/0000000000000001","zonalAutoshiftStatus":"enabled"}
---- status 6
script line 1: BadStatus

== an autoshift has a zone
call 0 0 0 StartAutoshift
---- status 6
script line 1: MissingMember

== a zone in autoshift has one byte at least
call 0 0 0 StartAutoshift {"awayFrom":""}
---- status 6
script line 1: BadZone

== a zone in autoshift has 32 bytes at most
call 0 0 0 StartAutoshift {"awayFrom":"zzzzzzzzzzzzzzzzzzzzzzzzzzzzzzzzz"}
---- status 6
script line 1: BadZone

== an autoshift is listed nowhere as a shift
call 0 0 0 RegisterManagedResource {"name":"lb","availabilityZones":["az1","az2"]}
call 0 0 0 CreatePracticeRunConfiguration {"resourceIdentifier":"arn:arc:resource/0000000000000001","outcomeAlarms":[{"alarmIdentifier":"errors"}]}
call 0 0 0 UpdateZonalAutoshiftConfiguration {"resourceIdentifier":"arn:arc:resource/0000000000000001","zonalAutoshiftStatus":"ENABLED"}
call 0 0 0 StartAutoshift {"awayFrom":"az1"}
call 0 0 0 ListZonalShifts
----
slot 0 token 1 200 {"resourceIdentifier":"arn:arc:resource/0000000000000001"}
slot 1 token 2 200 {}
slot 2 token 3 200 {"resourceIdentifier":"arn:arc:resource/0000000000000001","zonalAutoshiftStatus":"ENABLED"}
slot 3 token 4 200 {}
slot 4 token 5 200 {"items":[]}
