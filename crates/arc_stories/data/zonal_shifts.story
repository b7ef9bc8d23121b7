# Zonal shifts of the customer: how long they last, and how they are updated and cancelled.

== a shift is over after three days, and another begins
call 0 0 0 RegisterManagedResource {"name":"lb","availabilityZones":["use1-az1","use1-az2"]}
call 0 0 0 StartZonalShift {"resourceIdentifier":"arn:arc:resource/0000000000000001","awayFrom":"use1-az1","expiresIn":"4320m","comment":"x"}
call 0 259200000 0 UpdateZonalShift {"zonalShiftId":"00000000-0000-0000-0000-000000000001","expiresIn":"1h"}
call 0 259200000 0 StartZonalShift {"resourceIdentifier":"arn:arc:resource/0000000000000001","awayFrom":"use1-az1","expiresIn":"30m","comment":"x"}
call 0 259200001 0 CancelZonalShift {"zonalShiftId":"00000000-0000-0000-0000-000000000002"}
call 0 259200002 0 CancelZonalShift {"zonalShiftId":"00000000-0000-0000-0000-000000000002"}
----
slot 0 token 1 200 {"resourceIdentifier":"arn:arc:resource/0000000000000001"}
slot 1 token 2 200 {"awayFrom":"use1-az1","comment":"x","expiryTime":259200000,"resourceIdentifier":"arn:arc:resource/0000000000000001","startTime":0,"status":"ACTIVE","zonalShiftId":"00000000-0000-0000-0000-000000000001"}
slot 2 token 3 409 {"Reason":"NotActive","Status":"EXPIRED","__type":"ConflictException"}
slot 3 token 4 200 {"awayFrom":"use1-az1","comment":"x","expiryTime":261000000,"resourceIdentifier":"arn:arc:resource/0000000000000001","startTime":259200000,"status":"ACTIVE","zonalShiftId":"00000000-0000-0000-0000-000000000002"}
slot 4 token 5 200 {"awayFrom":"use1-az1","comment":"x","expiryTime":261000000,"resourceIdentifier":"arn:arc:resource/0000000000000001","startTime":259200000,"status":"CANCELED","zonalShiftId":"00000000-0000-0000-0000-000000000002"}
slot 5 token 6 409 {"Reason":"NotActive","Status":"CANCELED","__type":"ConflictException"}

== an update counts from its own time
call 0 0 0 RegisterManagedResource {"name":"lb","availabilityZones":["az1","az2"]}
call 0 0 0 StartZonalShift {"resourceIdentifier":"arn:arc:resource/0000000000000001","awayFrom":"az1","expiresIn":"4320m","comment":""}
call 0 0 0 StartZonalShift {"resourceIdentifier":"arn:arc:resource/0000000000000001","awayFrom":"az1","expiresIn":"30m","comment":""}
call 0 259199999 0 UpdateZonalShift {"zonalShiftId":"00000000-0000-0000-0000-000000000001","expiresIn":"60m"}
call 0 262799998 0 StartZonalShift {"resourceIdentifier":"arn:arc:resource/0000000000000001","awayFrom":"az1","expiresIn":"30m","comment":""}
call 0 262799999 0 StartZonalShift {"resourceIdentifier":"arn:arc:resource/0000000000000001","awayFrom":"az1","expiresIn":"30m","comment":""}
----
slot 0 token 1 200 {"resourceIdentifier":"arn:arc:resource/0000000000000001"}
slot 1 token 2 200 {"awayFrom":"az1","comment":"","expiryTime":259200000,"resourceIdentifier":"arn:arc:resource/0000000000000001","startTime":0,"status":"ACTIVE","zonalShiftId":"00000000-0000-0000-0000-000000000001"}
slot 2 token 3 409 {"By":"CUSTOMER","Reason":"Busy","__type":"ConflictException"}
slot 3 token 4 200 {"awayFrom":"az1","comment":"","expiryTime":262799999,"resourceIdentifier":"arn:arc:resource/0000000000000001","startTime":0,"status":"ACTIVE","zonalShiftId":"00000000-0000-0000-0000-000000000001"}
slot 4 token 5 409 {"By":"CUSTOMER","Reason":"Busy","__type":"ConflictException"}
slot 5 token 6 200 {"awayFrom":"az1","comment":"","expiryTime":264599999,"resourceIdentifier":"arn:arc:resource/0000000000000001","startTime":262799999,"status":"ACTIVE","zonalShiftId":"00000000-0000-0000-0000-000000000002"}

== 72 hours are three days
call 0 0 0 RegisterManagedResource {"name":"lb","availabilityZones":["az1","az2"]}
call 0 1000 0 StartZonalShift {"resourceIdentifier":"arn:arc:resource/0000000000000001","awayFrom":"az1","expiresIn":"72h","comment":""}
----
slot 0 token 1 200 {"resourceIdentifier":"arn:arc:resource/0000000000000001"}
slot 1 token 2 200 {"awayFrom":"az1","comment":"","expiryTime":259201000,"resourceIdentifier":"arn:arc:resource/0000000000000001","startTime":1000,"status":"ACTIVE","zonalShiftId":"00000000-0000-0000-0000-000000000001"}

== a shift lasts a minute at least
call 0 0 0 RegisterManagedResource {"name":"lb","availabilityZones":["az1","az2"]}
call 0 1000 0 StartZonalShift {"resourceIdentifier":"arn:arc:resource/0000000000000001","awayFrom":"az1","expiresIn":"1m","comment":""}
----
slot 0 token 1 200 {"resourceIdentifier":"arn:arc:resource/0000000000000001"}
slot 1 token 2 200 {"awayFrom":"az1","comment":"","expiryTime":61000,"resourceIdentifier":"arn:arc:resource/0000000000000001","startTime":1000,"status":"ACTIVE","zonalShiftId":"00000000-0000-0000-0000-000000000001"}

== an hour is 60 minutes
call 0 0 0 RegisterManagedResource {"name":"lb","availabilityZones":["az1","az2"]}
call 0 0 0 StartZonalShift {"resourceIdentifier":"arn:arc:resource/0000000000000001","awayFrom":"az1","expiresIn":"1h","comment":""}
call 0 0 0 UpdateZonalShift {"zonalShiftId":"00000000-0000-0000-0000-000000000001","expiresIn":"60m"}
----
slot 0 token 1 200 {"resourceIdentifier":"arn:arc:resource/0000000000000001"}
slot 1 token 2 200 {"awayFrom":"az1","comment":"","expiryTime":3600000,"resourceIdentifier":"arn:arc:resource/0000000000000001","startTime":0,"status":"ACTIVE","zonalShiftId":"00000000-0000-0000-0000-000000000001"}
slot 2 token 3 200 {"awayFrom":"az1","comment":"","expiryTime":3600000,"resourceIdentifier":"arn:arc:resource/0000000000000001","startTime":0,"status":"ACTIVE","zonalShiftId":"00000000-0000-0000-0000-000000000001"}

== 4,321 minutes are too many
call 0 0 0 StartZonalShift {"resourceIdentifier":"arn:arc:resource/0000000000000001","awayFrom":"az1","expiresIn":"4321m","comment":""}
---- status 6
script line 1: BadExpiry

== 73 hours are too many
call 0 0 0 StartZonalShift {"resourceIdentifier":"arn:arc:resource/0000000000000001","awayFrom":"az1","expiresIn":"73h","comment":""}
---- status 6
script line 1: BadExpiry

== no minute is too few
call 0 0 0 StartZonalShift {"resourceIdentifier":"arn:arc:resource/0000000000000001","awayFrom":"az1","expiresIn":"0m","comment":""}
---- status 6
script line 1: BadExpiry

== no hour is too few
call 0 0 0 StartZonalShift {"resourceIdentifier":"arn:arc:resource/0000000000000001","awayFrom":"az1","expiresIn":"0h","comment":""}
---- status 6
script line 1: BadExpiry

== a number of minutes begins with no 0
call 0 0 0 StartZonalShift {"resourceIdentifier":"arn:arc:resource/0000000000000001","awayFrom":"az1","expiresIn":"01m","comment":""}
---- status 6
script line 1: BadExpiry

== an expiry has a unit
call 0 0 0 StartZonalShift {"resourceIdentifier":"arn:arc:resource/0000000000000001","awayFrom":"az1","expiresIn":"60","comment":""}
---- status 6
script line 1: BadExpiry

== an expiry has a number
call 0 0 0 StartZonalShift {"resourceIdentifier":"arn:arc:resource/0000000000000001","awayFrom":"az1","expiresIn":"h","comment":""}
---- status 6
script line 1: BadExpiry

== days are no unit
call 0 0 0 StartZonalShift {"resourceIdentifier":"arn:arc:resource/0000000000000001","awayFrom":"az1","expiresIn":"3d","comment":""}
---- status 6
script line 1: BadExpiry

== a unit is in lower case
call 0 0 0 StartZonalShift {"resourceIdentifier":"arn:arc:resource/0000000000000001","awayFrom":"az1","expiresIn":"60M","comment":""}
---- status 6
script line 1: BadExpiry

== an empty expiry is none
call 0 0 0 StartZonalShift {"resourceIdentifier":"arn:arc:resource/0000000000000001","awayFrom":"az1","expiresIn":"","comment":""}
---- status 6
script line 1: BadExpiry

== an update is read by the same rule
call 0 0 0 UpdateZonalShift {"zonalShiftId":"00000000-0000-0000-0000-000000000001","expiresIn":"4321m"}
---- status 6
script line 1: BadExpiry

== three days count again from an update
call 0 0 0 RegisterManagedResource {"name":"lb","availabilityZones":["az1","az2"]}
call 0 0 0 StartZonalShift {"resourceIdentifier":"arn:arc:resource/0000000000000001","awayFrom":"az1","expiresIn":"72h","comment":""}
call 0 259199999 0 UpdateZonalShift {"zonalShiftId":"00000000-0000-0000-0000-000000000001","expiresIn":"72h"}
call 0 518399998 0 GetManagedResource {"resourceIdentifier":"arn:arc:resource/0000000000000001"}
call 0 518399999 0 GetManagedResource {"resourceIdentifier":"arn:arc:resource/0000000000000001"}
----
slot 0 token 1 200 {"resourceIdentifier":"arn:arc:resource/0000000000000001"}
slot 1 token 2 200 {"awayFrom":"az1","comment":"","expiryTime":259200000,"resourceIdentifier":"arn:arc:resource/0000000000000001","startTime":0,"status":"ACTIVE","zonalShiftId":"00000000-0000-0000-0000-000000000001"}
slot 2 token 3 200 {"awayFrom":"az1","comment":"","expiryTime":518399999,"resourceIdentifier":"arn:arc:resource/0000000000000001","startTime":0,"status":"ACTIVE","zonalShiftId":"00000000-0000-0000-0000-000000000001"}
slot 3 token 4 200 {"appliedShift":{"awayFrom":"az1","kind":"CUSTOMER"},"availabilityZones":["az1","az2"],"name":"lb","resourceIdentifier":"arn:arc:resource/0000000000000001","zonalAutoshiftStatus":"DISABLED"}
slot 4 token 5 200 {"appliedShift":null,"availabilityZones":["az1","az2"],"name":"lb","resourceIdentifier":"arn:arc:resource/0000000000000001","zonalAutoshiftStatus":"DISABLED"}

== an update makes a shift shorter
call 0 0 0 RegisterManagedResource {"name":"lb","availabilityZones":["az1","az2"]}
call 0 0 0 StartZonalShift {"resourceIdentifier":"arn:arc:resource/0000000000000001","awayFrom":"az1","expiresIn":"1h","comment":""}
call 0 1000 0 UpdateZonalShift {"zonalShiftId":"00000000-0000-0000-0000-000000000001","expiresIn":"1m"}
call 0 60999 0 StartZonalShift {"resourceIdentifier":"arn:arc:resource/0000000000000001","awayFrom":"az1","expiresIn":"1m","comment":""}
call 0 61000 0 StartZonalShift {"resourceIdentifier":"arn:arc:resource/0000000000000001","awayFrom":"az1","expiresIn":"1m","comment":""}
----
slot 0 token 1 200 {"resourceIdentifier":"arn:arc:resource/0000000000000001"}
slot 1 token 2 200 {"awayFrom":"az1","comment":"","expiryTime":3600000,"resourceIdentifier":"arn:arc:resource/0000000000000001","startTime":0,"status":"ACTIVE","zonalShiftId":"00000000-0000-0000-0000-000000000001"}
slot 2 token 3 200 {"awayFrom":"az1","comment":"","expiryTime":61000,"resourceIdentifier":"arn:arc:resource/0000000000000001","startTime":0,"status":"ACTIVE","zonalShiftId":"00000000-0000-0000-0000-000000000001"}
slot 3 token 4 409 {"By":"CUSTOMER","Reason":"Busy","__type":"ConflictException"}
slot 4 token 5 200 {"awayFrom":"az1","comment":"","expiryTime":121000,"resourceIdentifier":"arn:arc:resource/0000000000000001","startTime":61000,"status":"ACTIVE","zonalShiftId":"00000000-0000-0000-0000-000000000002"}

== a shift is active until its last millisecond
call 0 0 0 RegisterManagedResource {"name":"lb","availabilityZones":["az1","az2"]}
call 0 1000 0 StartZonalShift {"resourceIdentifier":"arn:arc:resource/0000000000000001","awayFrom":"az1","expiresIn":"1m","comment":""}
call 0 1000 0 ListZonalShifts
call 0 60999 0 ListZonalShifts
call 0 61000 0 ListZonalShifts
----
slot 0 token 1 200 {"resourceIdentifier":"arn:arc:resource/0000000000000001"}
slot 1 token 2 200 {"awayFrom":"az1","comment":"","expiryTime":61000,"resourceIdentifier":"arn:arc:resource/0000000000000001","startTime":1000,"status":"ACTIVE","zonalShiftId":"00000000-0000-0000-0000-000000000001"}
slot 2 token 3 200 {"items":[{"awayFrom":"az1","comment":"","expiryTime":61000,"resourceIdentifier":"arn:arc:resource/0000000000000001","startTime":1000,"status":"ACTIVE","zonalShiftId":"00000000-0000-0000-0000-000000000001"}]}
slot 3 token 4 200 {"items":[{"awayFrom":"az1","comment":"","expiryTime":61000,"resourceIdentifier":"arn:arc:resource/0000000000000001","startTime":1000,"status":"ACTIVE","zonalShiftId":"00000000-0000-0000-0000-000000000001"}]}
slot 4 token 5 200 {"items":[{"awayFrom":"az1","comment":"","expiryTime":61000,"resourceIdentifier":"arn:arc:resource/0000000000000001","startTime":1000,"status":"EXPIRED","zonalShiftId":"00000000-0000-0000-0000-000000000001"}]}

== a shift is cancelled at its start and stays cancelled
call 0 0 0 RegisterManagedResource {"name":"lb","availabilityZones":["az1","az2"]}
call 0 1000 0 StartZonalShift {"resourceIdentifier":"arn:arc:resource/0000000000000001","awayFrom":"az1","expiresIn":"1m","comment":""}
call 0 1000 0 CancelZonalShift {"zonalShiftId":"00000000-0000-0000-0000-000000000001"}
call 0 1000 0 ListZonalShifts
call 0 61000 0 ListZonalShifts
----
slot 0 token 1 200 {"resourceIdentifier":"arn:arc:resource/0000000000000001"}
slot 1 token 2 200 {"awayFrom":"az1","comment":"","expiryTime":61000,"resourceIdentifier":"arn:arc:resource/0000000000000001","startTime":1000,"status":"ACTIVE","zonalShiftId":"00000000-0000-0000-0000-000000000001"}
slot 2 token 3 200 {"awayFrom":"az1","comment":"","expiryTime":61000,"resourceIdentifier":"arn:arc:resource/0000000000000001","startTime":1000,"status":"CANCELED","zonalShiftId":"00000000-0000-0000-0000-000000000001"}
slot 3 token 4 200 {"items":[{"awayFrom":"az1","comment":"","expiryTime":61000,"resourceIdentifier":"arn:arc:resource/0000000000000001","startTime":1000,"status":"CANCELED","zonalShiftId":"00000000-0000-0000-0000-000000000001"}]}
slot 4 token 5 200 {"items":[{"awayFrom":"az1","comment":"","expiryTime":61000,"resourceIdentifier":"arn:arc:resource/0000000000000001","startTime":1000,"status":"CANCELED","zonalShiftId":"00000000-0000-0000-0000-000000000001"}]}

== a shift is cancelled at its last millisecond and stays cancelled
call 0 0 0 RegisterManagedResource {"name":"lb","availabilityZones":["az1","az2"]}
call 0 1000 0 StartZonalShift {"resourceIdentifier":"arn:arc:resource/0000000000000001","awayFrom":"az1","expiresIn":"1m","comment":""}
call 0 60999 0 CancelZonalShift {"zonalShiftId":"00000000-0000-0000-0000-000000000001"}
call 0 60999 0 ListZonalShifts
call 0 61000 0 ListZonalShifts
----
slot 0 token 1 200 {"resourceIdentifier":"arn:arc:resource/0000000000000001"}
slot 1 token 2 200 {"awayFrom":"az1","comment":"","expiryTime":61000,"resourceIdentifier":"arn:arc:resource/0000000000000001","startTime":1000,"status":"ACTIVE","zonalShiftId":"00000000-0000-0000-0000-000000000001"}
slot 2 token 3 200 {"awayFrom":"az1","comment":"","expiryTime":61000,"resourceIdentifier":"arn:arc:resource/0000000000000001","startTime":1000,"status":"CANCELED","zonalShiftId":"00000000-0000-0000-0000-000000000001"}
slot 3 token 4 200 {"items":[{"awayFrom":"az1","comment":"","expiryTime":61000,"resourceIdentifier":"arn:arc:resource/0000000000000001","startTime":1000,"status":"CANCELED","zonalShiftId":"00000000-0000-0000-0000-000000000001"}]}
slot 4 token 5 200 {"items":[{"awayFrom":"az1","comment":"","expiryTime":61000,"resourceIdentifier":"arn:arc:resource/0000000000000001","startTime":1000,"status":"CANCELED","zonalShiftId":"00000000-0000-0000-0000-000000000001"}]}

== a cancel that comes too late is refused
call 0 0 0 RegisterManagedResource {"name":"lb","availabilityZones":["az1","az2"]}
call 0 1000 0 StartZonalShift {"resourceIdentifier":"arn:arc:resource/0000000000000001","awayFrom":"az1","expiresIn":"1m","comment":""}
call 0 61000 0 CancelZonalShift {"zonalShiftId":"00000000-0000-0000-0000-000000000001"}
call 0 61000 0 ListZonalShifts
----
slot 0 token 1 200 {"resourceIdentifier":"arn:arc:resource/0000000000000001"}
slot 1 token 2 200 {"awayFrom":"az1","comment":"","expiryTime":61000,"resourceIdentifier":"arn:arc:resource/0000000000000001","startTime":1000,"status":"ACTIVE","zonalShiftId":"00000000-0000-0000-0000-000000000001"}
slot 2 token 3 409 {"Reason":"NotActive","Status":"EXPIRED","__type":"ConflictException"}
slot 3 token 4 200 {"items":[{"awayFrom":"az1","comment":"","expiryTime":61000,"resourceIdentifier":"arn:arc:resource/0000000000000001","startTime":1000,"status":"EXPIRED","zonalShiftId":"00000000-0000-0000-0000-000000000001"}]}

== a shift is cancelled once, also after its time
call 0 0 0 RegisterManagedResource {"name":"lb","availabilityZones":["az1","az2"]}
call 0 0 0 StartZonalShift {"resourceIdentifier":"arn:arc:resource/0000000000000001","awayFrom":"az1","expiresIn":"1m","comment":""}
call 0 1 0 CancelZonalShift {"zonalShiftId":"00000000-0000-0000-0000-000000000001"}
call 0 2 0 CancelZonalShift {"zonalShiftId":"00000000-0000-0000-0000-000000000001"}
call 0 60000 0 CancelZonalShift {"zonalShiftId":"00000000-0000-0000-0000-000000000001"}
----
slot 0 token 1 200 {"resourceIdentifier":"arn:arc:resource/0000000000000001"}
slot 1 token 2 200 {"awayFrom":"az1","comment":"","expiryTime":60000,"resourceIdentifier":"arn:arc:resource/0000000000000001","startTime":0,"status":"ACTIVE","zonalShiftId":"00000000-0000-0000-0000-000000000001"}
slot 2 token 3 200 {"awayFrom":"az1","comment":"","expiryTime":60000,"resourceIdentifier":"arn:arc:resource/0000000000000001","startTime":0,"status":"CANCELED","zonalShiftId":"00000000-0000-0000-0000-000000000001"}
slot 3 token 4 409 {"Reason":"NotActive","Status":"CANCELED","__type":"ConflictException"}
slot 4 token 5 409 {"Reason":"NotActive","Status":"CANCELED","__type":"ConflictException"}

== an update is in time at the last millisecond
call 0 0 0 RegisterManagedResource {"name":"lb","availabilityZones":["az1","az2"]}
call 0 0 0 StartZonalShift {"resourceIdentifier":"arn:arc:resource/0000000000000001","awayFrom":"az1","expiresIn":"1m","comment":""}
call 0 59999 0 UpdateZonalShift {"zonalShiftId":"00000000-0000-0000-0000-000000000001","expiresIn":"1m"}
call 0 119999 0 UpdateZonalShift {"zonalShiftId":"00000000-0000-0000-0000-000000000001","expiresIn":"1m"}
----
slot 0 token 1 200 {"resourceIdentifier":"arn:arc:resource/0000000000000001"}
slot 1 token 2 200 {"awayFrom":"az1","comment":"","expiryTime":60000,"resourceIdentifier":"arn:arc:resource/0000000000000001","startTime":0,"status":"ACTIVE","zonalShiftId":"00000000-0000-0000-0000-000000000001"}
slot 2 token 3 200 {"awayFrom":"az1","comment":"","expiryTime":119999,"resourceIdentifier":"arn:arc:resource/0000000000000001","startTime":0,"status":"ACTIVE","zonalShiftId":"00000000-0000-0000-0000-000000000001"}
slot 3 token 4 409 {"Reason":"NotActive","Status":"EXPIRED","__type":"ConflictException"}

== a cancelled shift is updated no more
call 0 0 0 RegisterManagedResource {"name":"lb","availabilityZones":["az1","az2"]}
call 0 0 0 StartZonalShift {"resourceIdentifier":"arn:arc:resource/0000000000000001","awayFrom":"az1","expiresIn":"1m","comment":""}
call 0 0 0 CancelZonalShift {"zonalShiftId":"00000000-0000-0000-0000-000000000001"}
call 0 0 0 UpdateZonalShift {"zonalShiftId":"00000000-0000-0000-0000-000000000001","comment":"late"}
call 0 0 0 ListZonalShifts
----
slot 0 token 1 200 {"resourceIdentifier":"arn:arc:resource/0000000000000001"}
slot 1 token 2 200 {"awayFrom":"az1","comment":"","expiryTime":60000,"resourceIdentifier":"arn:arc:resource/0000000000000001","startTime":0,"status":"ACTIVE","zonalShiftId":"00000000-0000-0000-0000-000000000001"}
slot 2 token 3 200 {"awayFrom":"az1","comment":"","expiryTime":60000,"resourceIdentifier":"arn:arc:resource/0000000000000001","startTime":0,"status":"CANCELED","zonalShiftId":"00000000-0000-0000-0000-000000000001"}
slot 3 token 4 409 {"Reason":"NotActive","Status":"CANCELED","__type":"ConflictException"}
slot 4 token 5 200 {"items":[{"awayFrom":"az1","comment":"","expiryTime":60000,"resourceIdentifier":"arn:arc:resource/0000000000000001","startTime":0,"status":"CANCELED","zonalShiftId":"00000000-0000-0000-0000-000000000001"}]}

== one shift of a resource is active at a time
call 0 0 0 RegisterManagedResource {"name":"lb","availabilityZones":["az1","az2"]}
call 0 0 0 RegisterManagedResource {"name":"api","availabilityZones":["az1","az2"]}
call 0 0 0 StartZonalShift {"resourceIdentifier":"arn:arc:resource/0000000000000001","awayFrom":"az1","expiresIn":"1m","comment":"x"}
call 0 59999 0 StartZonalShift {"resourceIdentifier":"arn:arc:resource/0000000000000001","awayFrom":"az1","expiresIn":"1m","comment":"x"}
call 0 59999 0 StartZonalShift {"resourceIdentifier":"arn:arc:resource/0000000000000002","awayFrom":"az1","expiresIn":"1m","comment":"x"}
call 0 60000 0 StartZonalShift {"resourceIdentifier":"arn:arc:resource/0000000000000001","awayFrom":"az1","expiresIn":"1m","comment":"x"}
call 0 60001 0 UpdateZonalShift {"zonalShiftId":"00000000-0000-0000-0000-000000000003","comment":"longer","expiresIn":"3m"}
call 0 60001 0 UpdateZonalShift {"zonalShiftId":"00000000-0000-0000-0000-000000000001","comment":"longer","expiresIn":"3m"}
call 0 240000 0 CancelZonalShift {"zonalShiftId":"00000000-0000-0000-0000-000000000003"}
call 0 240000 0 CancelZonalShift {"zonalShiftId":"00000000-0000-0000-0000-000000000003"}
call 0 240000 0 CancelZonalShift {"zonalShiftId":"00000000-0000-0000-0000-000000000009"}
call 0 240000 0 StartZonalShift {"resourceIdentifier":"arn:arc:resource/0000000000000001","awayFrom":"az1","expiresIn":"1m","comment":"x"}
call 0 240000 0 ListZonalShifts
----
slot 0 token 1 200 {"resourceIdentifier":"arn:arc:resource/0000000000000001"}
slot 1 token 2 200 {"resourceIdentifier":"arn:arc:resource/0000000000000002"}
slot 2 token 3 200 {"awayFrom":"az1","comment":"x","expiryTime":60000,"resourceIdentifier":"arn:arc:resource/0000000000000001","startTime":0,"status":"ACTIVE","zonalShiftId":"00000000-0000-0000-0000-000000000001"}
slot 3 token 4 409 {"By":"CUSTOMER","Reason":"Busy","__type":"ConflictException"}
slot 4 token 5 200 {"awayFrom":"az1","comment":"x","expiryTime":119999,"resourceIdentifier":"arn:arc:resource/0000000000000002","startTime":59999,"status":"ACTIVE","zonalShiftId":"00000000-0000-0000-0000-000000000002"}
slot 5 token 6 200 {"awayFrom":"az1","comment":"x","expiryTime":120000,"resourceIdentifier":"arn:arc:resource/0000000000000001","startTime":60000,"status":"ACTIVE","zonalShiftId":"00000000-0000-0000-0000-000000000003"}
slot 6 token 7 200 {"awayFrom":"az1","comment":"longer","expiryTime":240001,"resourceIdentifier":"arn:arc:resource/0000000000000001","startTime":60000,"status":"ACTIVE","zonalShiftId":"00000000-0000-0000-0000-000000000003"}
slot 7 token 8 409 {"Reason":"NotActive","Status":"EXPIRED","__type":"ConflictException"}
slot 8 token 9 200 {"awayFrom":"az1","comment":"longer","expiryTime":240001,"resourceIdentifier":"arn:arc:resource/0000000000000001","startTime":60000,"status":"CANCELED","zonalShiftId":"00000000-0000-0000-0000-000000000003"}
slot 9 token 10 409 {"Reason":"NotActive","Status":"CANCELED","__type":"ConflictException"}
slot 10 token 11 404 {"Reason":"NotFound","Resource":"00000000-0000-0000-0000-000000000009","__type":"ResourceNotFoundException"}
slot 11 token 12 200 {"awayFrom":"az1","comment":"x","expiryTime":300000,"resourceIdentifier":"arn:arc:resource/0000000000000001","startTime":240000,"status":"ACTIVE","zonalShiftId":"00000000-0000-0000-0000-000000000004"}
slot 12 token 13 200 {"items":[{"awayFrom":"az1","comment":"x","expiryTime":60000,"resourceIdentifier":"arn:arc:resource/0000000000000001","startTime":0,"status":"EXPIRED","zonalShiftId":"00000000-0000-0000-0000-000000000001"},{"awayFrom":"az1","comment":"x","expiryTime":119999,"resourceIdentifier":"arn:arc:resource/0000000000000002","startTime":59999,"status":"EXPIRED","zonalShiftId":"00000000-0000-0000-0000-000000000002"},{"awayFrom":"az1","comment":"longer","expiryTime":240001,"resourceIdentifier":"arn:arc:resource/0000000000000001","startTime":60000,"status":"CANCELED","zonalShiftId":"00000000-0000-0000-0000-000000000003"},{"awayFrom":"az1","comment":"x","expiryTime":300000,"resourceIdentifier":"arn:arc:resource/0000000000000001","startTime":240000,"status":"ACTIVE","zonalShiftId":"00000000-0000-0000-0000-000000000004"}]}

== a shift away from another zone waits too
call 0 0 0 RegisterManagedResource {"name":"lb","availabilityZones":["az1","az2"]}
call 0 0 0 StartZonalShift {"resourceIdentifier":"arn:arc:resource/0000000000000001","awayFrom":"az1","expiresIn":"1m","comment":""}
call 0 0 0 StartZonalShift {"resourceIdentifier":"arn:arc:resource/0000000000000001","awayFrom":"az2","expiresIn":"1m","comment":""}
call 0 0 0 CancelZonalShift {"zonalShiftId":"00000000-0000-0000-0000-000000000001"}
call 0 0 0 StartZonalShift {"resourceIdentifier":"arn:arc:resource/0000000000000001","awayFrom":"az2","expiresIn":"1m","comment":""}
----
slot 0 token 1 200 {"resourceIdentifier":"arn:arc:resource/0000000000000001"}
slot 1 token 2 200 {"awayFrom":"az1","comment":"","expiryTime":60000,"resourceIdentifier":"arn:arc:resource/0000000000000001","startTime":0,"status":"ACTIVE","zonalShiftId":"00000000-0000-0000-0000-000000000001"}
slot 2 token 3 409 {"By":"CUSTOMER","Reason":"Busy","__type":"ConflictException"}
slot 3 token 4 200 {"awayFrom":"az1","comment":"","expiryTime":60000,"resourceIdentifier":"arn:arc:resource/0000000000000001","startTime":0,"status":"CANCELED","zonalShiftId":"00000000-0000-0000-0000-000000000001"}
slot 4 token 5 200 {"awayFrom":"az2","comment":"","expiryTime":60000,"resourceIdentifier":"arn:arc:resource/0000000000000001","startTime":0,"status":"ACTIVE","zonalShiftId":"00000000-0000-0000-0000-000000000002"}

== a refused start draws no identifier
call 0 0 0 RegisterManagedResource {"name":"lb","availabilityZones":["az1","az2"]}
call 0 0 0 StartZonalShift {"resourceIdentifier":"arn:arc:resource/0000000000000001","awayFrom":"az3","expiresIn":"1m","comment":""}
call 0 0 0 StartZonalShift {"resourceIdentifier":"arn:arc:resource/0000000000000001","awayFrom":"az1","expiresIn":"1m","comment":""}
----
slot 0 token 1 200 {"resourceIdentifier":"arn:arc:resource/0000000000000001"}
slot 1 token 2 400 {"AwayFrom":"az3","Reason":"WrongZone","__type":"ValidationException"}
slot 2 token 3 200 {"awayFrom":"az1","comment":"","expiryTime":60000,"resourceIdentifier":"arn:arc:resource/0000000000000001","startTime":0,"status":"ACTIVE","zonalShiftId":"00000000-0000-0000-0000-000000000001"}

== an update sets what it names and nothing else
call 0 0 0 RegisterManagedResource {"name":"lb","availabilityZones":["az1","az2"]}
call 0 0 0 StartZonalShift {"resourceIdentifier":"arn:arc:resource/0000000000000001","awayFrom":"az1","expiresIn":"1h","comment":"x"}
call 0 1 0 UpdateZonalShift {"zonalShiftId":"00000000-0000-0000-0000-000000000001","comment":"y"}
call 0 2 0 UpdateZonalShift {"zonalShiftId":"00000000-0000-0000-0000-000000000001","expiresIn":"1m"}
call 0 3 0 UpdateZonalShift {"zonalShiftId":"00000000-0000-0000-0000-000000000001","comment":"","expiresIn":"2m"}
call 0 4 0 UpdateZonalShift {"zonalShiftId":"00000000-0000-0000-0000-000000000001"}
call 0 5 0 UpdateZonalShift {"zonalShiftId":"00000000-0000-0000-0000-000000000001","comment":null,"expiresIn":null}
call 0 6 0 ListZonalShifts
----
slot 0 token 1 200 {"resourceIdentifier":"arn:arc:resource/0000000000000001"}
slot 1 token 2 200 {"awayFrom":"az1","comment":"x","expiryTime":3600000,"resourceIdentifier":"arn:arc:resource/0000000000000001","startTime":0,"status":"ACTIVE","zonalShiftId":"00000000-0000-0000-0000-000000000001"}
slot 2 token 3 200 {"awayFrom":"az1","comment":"y","expiryTime":3600000,"resourceIdentifier":"arn:arc:resource/0000000000000001","startTime":0,"status":"ACTIVE","zonalShiftId":"00000000-0000-0000-0000-000000000001"}
slot 3 token 4 200 {"awayFrom":"az1","comment":"y","expiryTime":60002,"resourceIdentifier":"arn:arc:resource/0000000000000001","startTime":0,"status":"ACTIVE","zonalShiftId":"00000000-0000-0000-0000-000000000001"}
slot 4 token 5 200 {"awayFrom":"az1","comment":"","expiryTime":120003,"resourceIdentifier":"arn:arc:resource/0000000000000001","startTime":0,"status":"ACTIVE","zonalShiftId":"00000000-0000-0000-0000-000000000001"}
slot 5 token 6 200 {"awayFrom":"az1","comment":"","expiryTime":120003,"resourceIdentifier":"arn:arc:resource/0000000000000001","startTime":0,"status":"ACTIVE","zonalShiftId":"00000000-0000-0000-0000-000000000001"}
slot 6 token 7 200 {"awayFrom":"az1","comment":"","expiryTime":120003,"resourceIdentifier":"arn:arc:resource/0000000000000001","startTime":0,"status":"ACTIVE","zonalShiftId":"00000000-0000-0000-0000-000000000001"}
slot 7 token 8 200 {"items":[{"awayFrom":"az1","comment":"","expiryTime":120003,"resourceIdentifier":"arn:arc:resource/0000000000000001","startTime":0,"status":"ACTIVE","zonalShiftId":"00000000-0000-0000-0000-000000000001"}]}

== an unknown resource comes first, then a wrong zone, then a busy resource
call 0 0 0 RegisterManagedResource {"name":"lb","availabilityZones":["az1","az2"]}
call 0 0 0 StartZonalShift {"resourceIdentifier":"arn:arc:resource/0000000000000001","awayFrom":"az1","expiresIn":"1m","comment":""}
call 0 0 0 StartZonalShift {"resourceIdentifier":"arn:arc:resource/0000000000000002","awayFrom":"az3","expiresIn":"1m","comment":""}
call 0 0 0 StartZonalShift {"resourceIdentifier":"arn:arc:resource/0000000000000001","awayFrom":"az3","expiresIn":"1m","comment":""}
call 0 0 0 StartZonalShift {"resourceIdentifier":"arn:arc:resource/0000000000000001","awayFrom":"az1","expiresIn":"1m","comment":""}
----
slot 0 token 1 200 {"resourceIdentifier":"arn:arc:resource/0000000000000001"}
slot 1 token 2 200 {"awayFrom":"az1","comment":"","expiryTime":60000,"resourceIdentifier":"arn:arc:resource/0000000000000001","startTime":0,"status":"ACTIVE","zonalShiftId":"00000000-0000-0000-0000-000000000001"}
slot 2 token 3 404 {"Reason":"NotFound","Resource":"arn:arc:resource/0000000000000002","__type":"ResourceNotFoundException"}
slot 3 token 4 400 {"AwayFrom":"az3","Reason":"WrongZone","__type":"ValidationException"}
slot 4 token 5 409 {"By":"CUSTOMER","Reason":"Busy","__type":"ConflictException"}

== no shift is known before one starts
call 0 0 0 UpdateZonalShift {"zonalShiftId":"00000000-0000-0000-0000-000000000001"}
call 0 0 0 CancelZonalShift {"zonalShiftId":"00000000-0000-0000-0000-000000000001"}
----
slot 0 token 1 404 {"Reason":"NotFound","Resource":"00000000-0000-0000-0000-000000000001","__type":"ResourceNotFoundException"}
slot 1 token 2 404 {"Reason":"NotFound","Resource":"00000000-0000-0000-0000-000000000001","__type":"ResourceNotFoundException"}

== a practice run is no shift of the customer
call 0 0 0 RegisterManagedResource {"name":"lb","availabilityZones":["az1","az2"]}
call 0 0 0 CreatePracticeRunConfiguration {"resourceIdentifier":"arn:arc:resource/0000000000000001","outcomeAlarms":[{"alarmIdentifier":"errors"}]}
call 0 0 0 StartPracticeRun {"resourceIdentifier":"arn:arc:resource/0000000000000001","awayFrom":"az1","comment":""}
call 0 0 0 UpdateZonalShift {"zonalShiftId":"00000000-0000-0000-0000-000000000001","comment":"x"}
call 0 0 0 CancelZonalShift {"zonalShiftId":"00000000-0000-0000-0000-000000000001"}
call 0 0 0 ListZonalShifts
----
slot 0 token 1 200 {"resourceIdentifier":"arn:arc:resource/0000000000000001"}
slot 1 token 2 200 {}
slot 2 token 3 200 {"awayFrom":"az1","comment":"","expiryTime":1800000,"practiceRunOutcome":"PENDING","resourceIdentifier":"arn:arc:resource/0000000000000001","startTime":0,"status":"ACTIVE","zonalShiftId":"00000000-0000-0000-0000-000000000001"}
slot 3 token 4 404 {"Reason":"NotFound","Resource":"00000000-0000-0000-0000-000000000001","__type":"ResourceNotFoundException"}
slot 4 token 5 404 {"Reason":"NotFound","Resource":"00000000-0000-0000-0000-000000000001","__type":"ResourceNotFoundException"}
slot 5 token 6 200 {"items":[{"awayFrom":"az1","comment":"","expiryTime":1800000,"practiceRunOutcome":"PENDING","resourceIdentifier":"arn:arc:resource/0000000000000001","startTime":0,"status":"ACTIVE","zonalShiftId":"00000000-0000-0000-0000-000000000001"}]}

== list time goes before a call's own time
call 0 0 0 RegisterManagedResource {"name":"lb","availabilityZones":["az1","az2"]}
call 0 1000 0 GetManagedResource {"resourceIdentifier":"arn:arc:resource/0000000000000001"}
call 0 0 0 StartZonalShift {"resourceIdentifier":"arn:arc:resource/0000000000000001","awayFrom":"az1","expiresIn":"1m","comment":""}
call 0 5 0 UpdateZonalShift {"zonalShiftId":"00000000-0000-0000-0000-000000000001","expiresIn":"2m"}
call 0 0 0 CancelZonalShift {"zonalShiftId":"00000000-0000-0000-0000-000000000001"}
----
slot 0 token 1 200 {"resourceIdentifier":"arn:arc:resource/0000000000000001"}
slot 1 token 2 200 {"appliedShift":null,"availabilityZones":["az1","az2"],"name":"lb","resourceIdentifier":"arn:arc:resource/0000000000000001","zonalAutoshiftStatus":"DISABLED"}
slot 2 token 3 200 {"awayFrom":"az1","comment":"","expiryTime":61000,"resourceIdentifier":"arn:arc:resource/0000000000000001","startTime":1000,"status":"ACTIVE","zonalShiftId":"00000000-0000-0000-0000-000000000001"}
slot 3 token 4 200 {"awayFrom":"az1","comment":"","expiryTime":121000,"resourceIdentifier":"arn:arc:resource/0000000000000001","startTime":1000,"status":"ACTIVE","zonalShiftId":"00000000-0000-0000-0000-000000000001"}
slot 4 token 5 200 {"awayFrom":"az1","comment":"","expiryTime":121000,"resourceIdentifier":"arn:arc:resource/0000000000000001","startTime":1000,"status":"CANCELED","zonalShiftId":"00000000-0000-0000-0000-000000000001"}

== a refused call moves list time too
call 0 0 0 RegisterManagedResource {"name":"lb","availabilityZones":["az1","az2"]}
call 0 0 0 StartZonalShift {"resourceIdentifier":"arn:arc:resource/0000000000000001","awayFrom":"az1","expiresIn":"1m","comment":""}
call 0 60000 0 CancelZonalShift {"zonalShiftId":"00000000-0000-0000-0000-000000000009"}
call 0 0 0 CancelZonalShift {"zonalShiftId":"00000000-0000-0000-0000-000000000001"}
----
slot 0 token 1 200 {"resourceIdentifier":"arn:arc:resource/0000000000000001"}
slot 1 token 2 200 {"awayFrom":"az1","comment":"","expiryTime":60000,"resourceIdentifier":"arn:arc:resource/0000000000000001","startTime":0,"status":"ACTIVE","zonalShiftId":"00000000-0000-0000-0000-000000000001"}
slot 2 token 3 404 {"Reason":"NotFound","Resource":"00000000-0000-0000-0000-000000000009","__type":"ResourceNotFoundException"}
slot 3 token 4 409 {"Reason":"NotActive","Status":"EXPIRED","__type":"ConflictException"}

== a shift starts at the last moment of all
call 0 0 0 RegisterManagedResource {"name":"lb","availabilityZones":["az1","az2"]}
call 0 253402300799999 0 StartZonalShift {"resourceIdentifier":"arn:arc:resource/0000000000000001","awayFrom":"az1","expiresIn":"72h","comment":""}
call 0 253402300799999 0 GetManagedResource {"resourceIdentifier":"arn:arc:resource/0000000000000001"}
----
slot 0 token 1 200 {"resourceIdentifier":"arn:arc:resource/0000000000000001"}
slot 1 token 2 200 {"awayFrom":"az1","comment":"","expiryTime":253402559999999,"resourceIdentifier":"arn:arc:resource/0000000000000001","startTime":253402300799999,"status":"ACTIVE","zonalShiftId":"00000000-0000-0000-0000-000000000001"}
slot 2 token 3 200 {"appliedShift":{"awayFrom":"az1","kind":"CUSTOMER"},"availabilityZones":["az1","az2"],"name":"lb","resourceIdentifier":"arn:arc:resource/0000000000000001","zonalAutoshiftStatus":"DISABLED"}

== an identifier is read in each form of a UUID
call 0 0 0 RegisterManagedResource {"name":"lb","availabilityZones":["az1","az2"]}
loop n 0 9
call 0 0 0 StartZonalShift {"resourceIdentifier":"arn:arc:resource/0000000000000001","awayFrom":"az1","expiresIn":"1m","comment":""}
call 0 0 0 CancelZonalShift {"zonalShiftId":"00000000-0000-0000-0000-{n+1:012x}"}
endloop
call 0 0 0 CancelZonalShift {"zonalShiftId":"00000000-0000-0000-0000-00000000000a"}
call 0 0 0 CancelZonalShift {"zonalShiftId":"00000000-0000-0000-0000-00000000000A"}
call 0 0 0 CancelZonalShift {"zonalShiftId":"0000000000000000000000000000000a"}
call 0 0 0 CancelZonalShift {"zonalShiftId":"{00000000-0000-0000-0000-00000000000a}"}
call 0 0 0 CancelZonalShift {"zonalShiftId":"urn:uuid:00000000-0000-0000-0000-00000000000a"}
# what is written is in lower case and hyphenated
call 0 0 0 CancelZonalShift {"zonalShiftId":"0000000000000000000000000000000B"}
----
slot 0 token 1 200 {"resourceIdentifier":"arn:arc:resource/0000000000000001"}
loop n 0 9
slot {2n+1} token {2n+2} 200 {"awayFrom":"az1","comment":"","expiryTime":60000,"resourceIdentifier":"arn:arc:resource/0000000000000001","startTime":0,"status":"ACTIVE","zonalShiftId":"00000000-0000-0000-0000-{n+1:012x}"}
slot {2n+2} token {2n+3} 200 {"awayFrom":"az1","comment":"","expiryTime":60000,"resourceIdentifier":"arn:arc:resource/0000000000000001","startTime":0,"status":"CANCELED","zonalShiftId":"00000000-0000-0000-0000-{n+1:012x}"}
endloop
slot 21 token 22 409 {"Reason":"NotActive","Status":"CANCELED","__type":"ConflictException"}
slot 22 token 23 409 {"Reason":"NotActive","Status":"CANCELED","__type":"ConflictException"}
slot 23 token 24 409 {"Reason":"NotActive","Status":"CANCELED","__type":"ConflictException"}
slot 24 token 25 409 {"Reason":"NotActive","Status":"CANCELED","__type":"ConflictException"}
slot 25 token 26 409 {"Reason":"NotActive","Status":"CANCELED","__type":"ConflictException"}
slot 26 token 27 404 {"Reason":"NotFound","Resource":"00000000-0000-0000-0000-00000000000b","__type":"ResourceNotFoundException"}

== an identifier has 64 bits
call 0 0 0 CancelZonalShift {"zonalShiftId":"00000000-0000-0001-0000-000000000001"}
---- status 6
script line 1: BadId

== a number is no identifier
call 0 0 0 CancelZonalShift {"zonalShiftId":"1"}
---- status 6
script line 1: BadId

== a resource's identifier is no shift's
call 0 0 0 CancelZonalShift {"zonalShiftId":"arn:arc:resource/0000000000000001"}
---- status 6
script line 1: BadId

== an identifier has all of its 64 bits
call 0 0 0 CancelZonalShift {"zonalShiftId":"00000000-0000-0000-ffff-ffffffffffff"}
----
slot 0 token 1 404 {"Reason":"NotFound","Resource":"00000000-0000-0000-ffff-ffffffffffff","__type":"ResourceNotFoundException"}

== a comment has 128 bytes at most
call 0 0 0 RegisterManagedResource {"name":"lb","availabilityZones":["az1","az2"]}
call 0 0 0 StartZonalShift {"resourceIdentifier":"arn:arc:resource/0000000000000001","awayFrom":"az1","expiresIn":"1m","comment":"cccccccccccccccccccccccccccccccccccccccccccccccccccccccccccccccccccccccccccccccccccccccccccccccccccccccccccccccccccccccccccccccc"}
----
slot 0 token 1 200 {"resourceIdentifier":"arn:arc:resource/0000000000000001"}
slot 1 token 2 200 {"awayFrom":"az1","comment":"cccccccccccccccccccccccccccccccccccccccccccccccccccccccccccccccccccccccccccccccccccccccccccccccccccccccccccccccccccccccccccccccc","expiryTime":60000,"resourceIdentifier":"arn:arc:resource/0000000000000001","startTime":0,"status":"ACTIVE","zonalShiftId":"00000000-0000-0000-0000-000000000001"}

== a comment of 129 bytes is none
call 0 0 0 StartZonalShift {"resourceIdentifier":"arn:arc:resource/0000000000000001","awayFrom":"az1","expiresIn":"1m","comment":"ccccccccccccccccccccccccccccccccccccccccccccccccccccccccccccccccccccccccccccccccccccccccccccccccccccccccccccccccccccccccccccccccc"}
---- status 6
script line 1: BadComment

== a start has a comment, were it empty
call 0 0 0 StartZonalShift {"resourceIdentifier":"arn:arc:resource/0000000000000001","awayFrom":"az1","expiresIn":"1m"}
---- status 6
script line 1: MissingMember
