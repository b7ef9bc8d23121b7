# The bodies of managed resources and zonal shifts.

== a resource has its name and its zones
call 0 0 0 RegisterManagedResource {"name":"xxxxxxxxxxxxxxxxxxxxxxxxxxxxxxxxxxxxxxxxxxxxxxxxxxxxxxxxxxxxxxxx","availabilityZones":["z","zzzzzzzzzzzzzzzzzzzzzzzzzzzzzzzz"]}
call 0 0 0 RegisterManagedResource {"name":"s","availabilityZones":["üüüüüüüüüüüüüüüü"]}
call 0 0 0 GetManagedResource {"resourceIdentifier":"arn:arc:resource/0000000000000001"}
call 0 0 0 GetManagedResource {"resourceIdentifier":"arn:arc:resource/0000000000000002"}
call 0 0 0 ListManagedResources
----
slot 0 token 1 200 {"resourceIdentifier":"arn:arc:resource/0000000000000001"}
slot 1 token 2 200 {"resourceIdentifier":"arn:arc:resource/0000000000000002"}
slot 2 token 3 200 {"appliedShift":null,"availabilityZones":["z","zzzzzzzzzzzzzzzzzzzzzzzzzzzzzzzz"],"name":"xxxxxxxxxxxxxxxxxxxxxxxxxxxxxxxxxxxxxxxxxxxxxxxxxxxxxxxxxxxxxxxx","resourceIdentifier":"arn:arc:resource/0000000000000001","zonalAutoshiftStatus":"DISABLED"}
slot 3 token 4 200 {"appliedShift":null,"availabilityZones":["üüüüüüüüüüüüüüüü"],"name":"s","resourceIdentifier":"arn:arc:resource/0000000000000002","zonalAutoshiftStatus":"DISABLED"}
slot 4 token 5 200 {"items":[{"name":"xxxxxxxxxxxxxxxxxxxxxxxxxxxxxxxxxxxxxxxxxxxxxxxxxxxxxxxxxxxxxxxx","resourceIdentifier":"arn:arc:resource/0000000000000001"},{"name":"s","resourceIdentifier":"arn:arc:resource/0000000000000002"}]}

== a resource may have six zones, which keep their order
call 0 0 0 RegisterManagedResource {"name":"r","availabilityZones":["f","e","d","c","b","a"]}
call 0 0 0 GetManagedResource {"resourceIdentifier":"arn:arc:resource/0000000000000001"}
----
slot 0 token 1 200 {"resourceIdentifier":"arn:arc:resource/0000000000000001"}
slot 1 token 2 200 {"appliedShift":null,"availabilityZones":["f","e","d","c","b","a"],"name":"r","resourceIdentifier":"arn:arc:resource/0000000000000001","zonalAutoshiftStatus":"DISABLED"}

== a comment has up to 128 bytes
call 0 0 0 RegisterManagedResource {"name":"r","availabilityZones":["z"]}
call 0 0 0 StartZonalShift {"resourceIdentifier":"arn:arc:resource/0000000000000001","awayFrom":"z","expiresIn":"1m","comment":"cccccccccccccccccccccccccccccccccccccccccccccccccccccccccccccccccccccccccccccccccccccccccccccccccccccccccccccccccccccccccccccccc"}
call 0 0 0 UpdateZonalShift {"zonalShiftId":"00000000-0000-0000-0000-000000000001","comment":"üüüüüüüüüüüüüüüüüüüüüüüüüüüüüüüüüüüüüüüüüüüüüüüüüüüüüüüüüüüüüüüü"}
call 0 0 0 UpdateZonalShift {"zonalShiftId":"00000000-0000-0000-0000-000000000001","comment":""}
----
slot 0 token 1 200 {"resourceIdentifier":"arn:arc:resource/0000000000000001"}
slot 1 token 2 200 {"awayFrom":"z","comment":"cccccccccccccccccccccccccccccccccccccccccccccccccccccccccccccccccccccccccccccccccccccccccccccccccccccccccccccccccccccccccccccccc","expiryTime":60000,"resourceIdentifier":"arn:arc:resource/0000000000000001","startTime":0,"status":"ACTIVE","zonalShiftId":"00000000-0000-0000-0000-000000000001"}
slot 2 token 3 200 {"awayFrom":"z","comment":"üüüüüüüüüüüüüüüüüüüüüüüüüüüüüüüüüüüüüüüüüüüüüüüüüüüüüüüüüüüüüüüü","expiryTime":60000,"resourceIdentifier":"arn:arc:resource/0000000000000001","startTime":0,"status":"ACTIVE","zonalShiftId":"00000000-0000-0000-0000-000000000001"}
slot 3 token 4 200 {"awayFrom":"z","comment":"","expiryTime":60000,"resourceIdentifier":"arn:arc:resource/0000000000000001","startTime":0,"status":"ACTIVE","zonalShiftId":"00000000-0000-0000-0000-000000000001"}

== a shift keeps what an update doesn't give
call 0 0 0 RegisterManagedResource {"name":"r","availabilityZones":["z"]}
call 0 0 0 StartZonalShift {"resourceIdentifier":"arn:arc:resource/0000000000000001","awayFrom":"z","expiresIn":"1m","comment":"a"}
call 0 1 0 UpdateZonalShift {"zonalShiftId":"00000000-0000-0000-0000-000000000001"}
call 0 2 0 UpdateZonalShift {"zonalShiftId":"00000000-0000-0000-0000-000000000001","comment":null,"expiresIn":null}
call 0 3 0 UpdateZonalShift {"zonalShiftId":"00000000-0000-0000-0000-000000000001","comment":"b"}
call 0 4 0 UpdateZonalShift {"zonalShiftId":"00000000-0000-0000-0000-000000000001","expiresIn":"1h"}
call 0 5 0 UpdateZonalShift {"zonalShiftId":"00000000-0000-0000-0000-000000000001","comment":"","expiresIn":"90m"}
----
slot 0 token 1 200 {"resourceIdentifier":"arn:arc:resource/0000000000000001"}
slot 1 token 2 200 {"awayFrom":"z","comment":"a","expiryTime":60000,"resourceIdentifier":"arn:arc:resource/0000000000000001","startTime":0,"status":"ACTIVE","zonalShiftId":"00000000-0000-0000-0000-000000000001"}
slot 2 token 3 200 {"awayFrom":"z","comment":"a","expiryTime":60000,"resourceIdentifier":"arn:arc:resource/0000000000000001","startTime":0,"status":"ACTIVE","zonalShiftId":"00000000-0000-0000-0000-000000000001"}
slot 3 token 4 200 {"awayFrom":"z","comment":"a","expiryTime":60000,"resourceIdentifier":"arn:arc:resource/0000000000000001","startTime":0,"status":"ACTIVE","zonalShiftId":"00000000-0000-0000-0000-000000000001"}
slot 4 token 5 200 {"awayFrom":"z","comment":"b","expiryTime":60000,"resourceIdentifier":"arn:arc:resource/0000000000000001","startTime":0,"status":"ACTIVE","zonalShiftId":"00000000-0000-0000-0000-000000000001"}
slot 5 token 6 200 {"awayFrom":"z","comment":"b","expiryTime":3600004,"resourceIdentifier":"arn:arc:resource/0000000000000001","startTime":0,"status":"ACTIVE","zonalShiftId":"00000000-0000-0000-0000-000000000001"}
slot 6 token 7 200 {"awayFrom":"z","comment":"","expiryTime":5400005,"resourceIdentifier":"arn:arc:resource/0000000000000001","startTime":0,"status":"ACTIVE","zonalShiftId":"00000000-0000-0000-0000-000000000001"}

== a shift is cancelled
call 0 0 0 RegisterManagedResource {"name":"r","availabilityZones":["z"]}
call 0 0 0 StartZonalShift {"resourceIdentifier":"arn:arc:resource/0000000000000001","awayFrom":"z","expiresIn":"1m","comment":""}
call 0 1 0 CancelZonalShift {"zonalShiftId":"00000000-0000-0000-0000-000000000001"}
----
slot 0 token 1 200 {"resourceIdentifier":"arn:arc:resource/0000000000000001"}
slot 1 token 2 200 {"awayFrom":"z","comment":"","expiryTime":60000,"resourceIdentifier":"arn:arc:resource/0000000000000001","startTime":0,"status":"ACTIVE","zonalShiftId":"00000000-0000-0000-0000-000000000001"}
slot 2 token 3 200 {"awayFrom":"z","comment":"","expiryTime":60000,"resourceIdentifier":"arn:arc:resource/0000000000000001","startTime":0,"status":"CANCELED","zonalShiftId":"00000000-0000-0000-0000-000000000001"}

== shifts are listed by resource and by status
call 0 0 0 RegisterManagedResource {"name":"r","availabilityZones":["z"]}
call 0 0 0 RegisterManagedResource {"name":"s","availabilityZones":["z"]}
call 0 0 0 StartZonalShift {"resourceIdentifier":"arn:arc:resource/0000000000000001","awayFrom":"z","expiresIn":"1m","comment":""}
call 0 1 0 CancelZonalShift {"zonalShiftId":"00000000-0000-0000-0000-000000000001"}
call 0 1 0 StartZonalShift {"resourceIdentifier":"arn:arc:resource/0000000000000001","awayFrom":"z","expiresIn":"1m","comment":""}
call 0 1 0 StartZonalShift {"resourceIdentifier":"arn:arc:resource/0000000000000002","awayFrom":"z","expiresIn":"2h","comment":""}
call 0 60001 0 ListZonalShifts
call 0 0 0 ListZonalShifts {"resourceIdentifier":"arn:arc:resource/0000000000000001"}
call 0 0 0 ListZonalShifts {"resourceIdentifier":null,"status":"ACTIVE"}
call 0 0 0 ListZonalShifts {"status":"EXPIRED"}
call 0 0 0 ListZonalShifts {"status":"CANCELED","resourceIdentifier":"arn:arc:resource/0000000000000001"}
call 0 0 0 ListZonalShifts {"resourceIdentifier":"arn:arc:resource/0000000000000002","status":"CANCELED"}
----
slot 0 token 1 200 {"resourceIdentifier":"arn:arc:resource/0000000000000001"}
slot 1 token 2 200 {"resourceIdentifier":"arn:arc:resource/0000000000000002"}
slot 2 token 3 200 {"awayFrom":"z","comment":"","expiryTime":60000,"resourceIdentifier":"arn:arc:resource/0000000000000001","startTime":0,"status":"ACTIVE","zonalShiftId":"00000000-0000-0000-0000-000000000001"}
slot 3 token 4 200 {"awayFrom":"z","comment":"","expiryTime":60000,"resourceIdentifier":"arn:arc:resource/0000000000000001","startTime":0,"status":"CANCELED","zonalShiftId":"00000000-0000-0000-0000-000000000001"}
slot 4 token 5 200 {"awayFrom":"z","comment":"","expiryTime":60001,"resourceIdentifier":"arn:arc:resource/0000000000000001","startTime":1,"status":"ACTIVE","zonalShiftId":"00000000-0000-0000-0000-000000000002"}
slot 5 token 6 200 {"awayFrom":"z","comment":"","expiryTime":7200001,"resourceIdentifier":"arn:arc:resource/0000000000000002","startTime":1,"status":"ACTIVE","zonalShiftId":"00000000-0000-0000-0000-000000000003"}
slot 6 token 7 200 {"items":[{"awayFrom":"z","comment":"","expiryTime":60000,"resourceIdentifier":"arn:arc:resource/0000000000000001","startTime":0,"status":"CANCELED","zonalShiftId":"00000000-0000-0000-0000-000000000001"},{"awayFrom":"z","comment":"","expiryTime":60001,"resourceIdentifier":"arn:arc:resource/0000000000000001","startTime":1,"status":"EXPIRED","zonalShiftId":"00000000-0000-0000-0000-000000000002"},{"awayFrom":"z","comment":"","expiryTime":7200001,"resourceIdentifier":"arn:arc:resource/0000000000000002","startTime":1,"status":"ACTIVE","zonalShiftId":"00000000-0000-0000-0000-000000000003"}]}
slot 7 token 8 200 {"items":[{"awayFrom":"z","comment":"","expiryTime":60000,"resourceIdentifier":"arn:arc:resource/0000000000000001","startTime":0,"status":"CANCELED","zonalShiftId":"00000000-0000-0000-0000-000000000001"},{"awayFrom":"z","comment":"","expiryTime":60001,"resourceIdentifier":"arn:arc:resource/0000000000000001","startTime":1,"status":"EXPIRED","zonalShiftId":"00000000-0000-0000-0000-000000000002"}]}
slot 8 token 9 200 {"items":[{"awayFrom":"z","comment":"","expiryTime":7200001,"resourceIdentifier":"arn:arc:resource/0000000000000002","startTime":1,"status":"ACTIVE","zonalShiftId":"00000000-0000-0000-0000-000000000003"}]}
slot 9 token 10 200 {"items":[{"awayFrom":"z","comment":"","expiryTime":60001,"resourceIdentifier":"arn:arc:resource/0000000000000001","startTime":1,"status":"EXPIRED","zonalShiftId":"00000000-0000-0000-0000-000000000002"}]}
slot 10 token 11 200 {"items":[{"awayFrom":"z","comment":"","expiryTime":60000,"resourceIdentifier":"arn:arc:resource/0000000000000001","startTime":0,"status":"CANCELED","zonalShiftId":"00000000-0000-0000-0000-000000000001"}]}
slot 11 token 12 200 {"items":[]}

== RegisterManagedResource without name
call 0 0 0 RegisterManagedResource {"availabilityZones":1}
---- status 6
script line 1: MissingMember

== RegisterManagedResource with name that is a number
call 0 0 0 RegisterManagedResource {"name":1,"availabilityZones":1}
---- status 6
script line 1: WrongType

== RegisterManagedResource with name that is empty
call 0 0 0 RegisterManagedResource {"name":"","availabilityZones":1}
---- status 6
script line 1: BadName

== RegisterManagedResource with name of 65 bytes
call 0 0 0 RegisterManagedResource {"name":"xxxxxxxxxxxxxxxxxxxxxxxxxxxxxxxxxxxxxxxxxxxxxxxxxxxxxxxxxxxxxxxxx","availabilityZones":1}
---- status 6
script line 1: BadName

== RegisterManagedResource without availabilityZones
call 0 0 0 RegisterManagedResource {"name":"a"}
---- status 6
script line 1: MissingMember

== RegisterManagedResource with availabilityZones that are a number
call 0 0 0 RegisterManagedResource {"name":"a","availabilityZones":1}
---- status 6
script line 1: WrongType

== RegisterManagedResource with availabilityZones that are an object
call 0 0 0 RegisterManagedResource {"name":"a","availabilityZones":{}}
---- status 6
script line 1: WrongType

== RegisterManagedResource with availabilityZones of which there are none
call 0 0 0 RegisterManagedResource {"name":"a","availabilityZones":[]}
---- status 6
script line 1: EmptyEntries

== RegisterManagedResource with availabilityZones of which there are 7, whatever they are
call 0 0 0 RegisterManagedResource {"name":"a","availabilityZones":[1,1,1,1,1,1,1]}
---- status 6
script line 1: TooManyEntries

== RegisterManagedResource with availabilityZones of which one is null
call 0 0 0 RegisterManagedResource {"name":"a","availabilityZones":["z",null]}
---- status 6
script line 1: WrongType

== RegisterManagedResource with availabilityZones of which one is empty
call 0 0 0 RegisterManagedResource {"name":"a","availabilityZones":["z",""]}
---- status 6
script line 1: BadZone

== RegisterManagedResource with availabilityZones of which one has 33 bytes
call 0 0 0 RegisterManagedResource {"name":"a","availabilityZones":["zzzzzzzzzzzzzzzzzzzzzzzzzzzzzzzzz"]}
---- status 6
script line 1: BadZone

== RegisterManagedResource with availabilityZones of which one has 17 letters in 34 bytes
call 0 0 0 RegisterManagedResource {"name":"a","availabilityZones":["üüüüüüüüüüüüüüüüü"]}
---- status 6
script line 1: BadZone

== RegisterManagedResource with availabilityZones of which one stands twice
call 0 0 0 RegisterManagedResource {"name":"a","availabilityZones":["z","y","z"]}
---- status 6
script line 1: DoubledEntry

== RegisterManagedResource with availabilityZones of which all are read before doubles are found
call 0 0 0 RegisterManagedResource {"name":"a","availabilityZones":["z","z",""]}
---- status 6
script line 1: BadZone

== GetManagedResource without resourceIdentifier
call 0 0 0 GetManagedResource {}
---- status 6
script line 1: MissingMember

== GetManagedResource with resourceIdentifier that is a number
call 0 0 0 GetManagedResource {"resourceIdentifier":1}
---- status 6
script line 1: WrongType

== GetManagedResource with resourceIdentifier of another kind
call 0 0 0 GetManagedResource {"resourceIdentifier":"arn:arc:rule/0000000000000001"}
---- status 6
script line 1: BadId

== StartZonalShift without resourceIdentifier
call 0 0 0 StartZonalShift {"awayFrom":1,"expiresIn":1,"comment":1}
---- status 6
script line 1: MissingMember

== StartZonalShift with resourceIdentifier that is a number
call 0 0 0 StartZonalShift {"resourceIdentifier":1,"awayFrom":1,"expiresIn":1,"comment":1}
---- status 6
script line 1: WrongType

== StartZonalShift with resourceIdentifier of another kind
call 0 0 0 StartZonalShift {"resourceIdentifier":"arn:arc:control/0000000000000001","awayFrom":1,"expiresIn":1,"comment":1}
---- status 6
script line 1: BadId

== StartZonalShift without awayFrom
call 0 0 0 StartZonalShift {"resourceIdentifier":"arn:arc:resource/0000000000000001","expiresIn":1,"comment":1}
---- status 6
script line 1: MissingMember

== StartZonalShift with awayFrom that is a number
call 0 0 0 StartZonalShift {"resourceIdentifier":"arn:arc:resource/0000000000000001","awayFrom":1,"expiresIn":1,"comment":1}
---- status 6
script line 1: WrongType

== StartZonalShift with awayFrom that is empty
call 0 0 0 StartZonalShift {"resourceIdentifier":"arn:arc:resource/0000000000000001","awayFrom":"","expiresIn":1,"comment":1}
---- status 6
script line 1: BadZone

== StartZonalShift with awayFrom of 33 bytes
call 0 0 0 StartZonalShift {"resourceIdentifier":"arn:arc:resource/0000000000000001","awayFrom":"zzzzzzzzzzzzzzzzzzzzzzzzzzzzzzzzz","expiresIn":1,"comment":1}
---- status 6
script line 1: BadZone

== StartZonalShift without expiresIn
call 0 0 0 StartZonalShift {"resourceIdentifier":"arn:arc:resource/0000000000000001","awayFrom":"z","comment":1}
---- status 6
script line 1: MissingMember

== StartZonalShift with expiresIn that is a number
call 0 0 0 StartZonalShift {"resourceIdentifier":"arn:arc:resource/0000000000000001","awayFrom":"z","expiresIn":60,"comment":1}
---- status 6
script line 1: WrongType

== StartZonalShift with expiresIn in days
call 0 0 0 StartZonalShift {"resourceIdentifier":"arn:arc:resource/0000000000000001","awayFrom":"z","expiresIn":"1d","comment":1}
---- status 6
script line 1: BadExpiry

== StartZonalShift without comment
call 0 0 0 StartZonalShift {"resourceIdentifier":"arn:arc:resource/0000000000000001","awayFrom":"z","expiresIn":"1m"}
---- status 6
script line 1: MissingMember

== StartZonalShift with comment that is an object
call 0 0 0 StartZonalShift {"resourceIdentifier":"arn:arc:resource/0000000000000001","awayFrom":"z","expiresIn":"1m","comment":{}}
---- status 6
script line 1: WrongType

== StartZonalShift with comment of 129 bytes
call 0 0 0 StartZonalShift {"resourceIdentifier":"arn:arc:resource/0000000000000001","awayFrom":"z","expiresIn":"1m","comment":"ccccccccccccccccccccccccccccccccccccccccccccccccccccccccccccccccccccccccccccccccccccccccccccccccccccccccccccccccccccccccccccccccc"}
---- status 6
script line 1: BadComment

== StartZonalShift with comment of 65 letters in 130 bytes
call 0 0 0 StartZonalShift {"resourceIdentifier":"arn:arc:resource/0000000000000001","awayFrom":"z","expiresIn":"1m","comment":"üüüüüüüüüüüüüüüüüüüüüüüüüüüüüüüüüüüüüüüüüüüüüüüüüüüüüüüüüüüüüüüüü"}
---- status 6
script line 1: BadComment

== UpdateZonalShift without zonalShiftId
call 0 0 0 UpdateZonalShift {"comment":1,"expiresIn":1}
---- status 6
script line 1: MissingMember

== UpdateZonalShift with zonalShiftId that is a number
call 0 0 0 UpdateZonalShift {"zonalShiftId":1,"comment":1,"expiresIn":1}
---- status 6
script line 1: WrongType

== UpdateZonalShift with zonalShiftId of another kind
call 0 0 0 UpdateZonalShift {"zonalShiftId":"arn:arc:resource/0000000000000001","comment":1,"expiresIn":1}
---- status 6
script line 1: BadId

== UpdateZonalShift with comment that is an object
call 0 0 0 UpdateZonalShift {"zonalShiftId":"00000000-0000-0000-0000-000000000001","comment":{},"expiresIn":1}
---- status 6
script line 1: WrongType

== UpdateZonalShift with comment of 129 bytes
call 0 0 0 UpdateZonalShift {"zonalShiftId":"00000000-0000-0000-0000-000000000001","comment":"ccccccccccccccccccccccccccccccccccccccccccccccccccccccccccccccccccccccccccccccccccccccccccccccccccccccccccccccccccccccccccccccccc","expiresIn":1}
---- status 6
script line 1: BadComment

== UpdateZonalShift with comment of 65 letters in 130 bytes
call 0 0 0 UpdateZonalShift {"zonalShiftId":"00000000-0000-0000-0000-000000000001","comment":"üüüüüüüüüüüüüüüüüüüüüüüüüüüüüüüüüüüüüüüüüüüüüüüüüüüüüüüüüüüüüüüüü","expiresIn":1}
---- status 6
script line 1: BadComment

== UpdateZonalShift with expiresIn that is a number
call 0 0 0 UpdateZonalShift {"zonalShiftId":"00000000-0000-0000-0000-000000000001","comment":"c","expiresIn":60}
---- status 6
script line 1: WrongType

== UpdateZonalShift with expiresIn in days
call 0 0 0 UpdateZonalShift {"zonalShiftId":"00000000-0000-0000-0000-000000000001","comment":"c","expiresIn":"1d"}
---- status 6
script line 1: BadExpiry

== CancelZonalShift without zonalShiftId
call 0 0 0 CancelZonalShift {}
---- status 6
script line 1: MissingMember

== CancelZonalShift with zonalShiftId that is a number
call 0 0 0 CancelZonalShift {"zonalShiftId":1}
---- status 6
script line 1: WrongType

== CancelZonalShift with zonalShiftId of another kind
call 0 0 0 CancelZonalShift {"zonalShiftId":"arn:arc:resource/0000000000000001"}
---- status 6
script line 1: BadId

== ListZonalShifts with resourceIdentifier that is a number
call 0 0 0 ListZonalShifts {"resourceIdentifier":1,"status":1}
---- status 6
script line 1: WrongType

== ListZonalShifts with resourceIdentifier of another kind
call 0 0 0 ListZonalShifts {"resourceIdentifier":"arn:arc:rule/0000000000000001","status":1}
---- status 6
script line 1: BadId

== ListZonalShifts with status that is a number
call 0 0 0 ListZonalShifts {"resourceIdentifier":"arn:arc:resource/0000000000000001","status":1}
---- status 6
script line 1: WrongType

== ListZonalShifts with status with one letter more
call 0 0 0 ListZonalShifts {"resourceIdentifier":"arn:arc:resource/0000000000000001","status":"CANCELLED"}
---- status 6
script line 1: BadStatus

== ListZonalShifts with status in small letters
call 0 0 0 ListZonalShifts {"resourceIdentifier":"arn:arc:resource/0000000000000001","status":"active"}
---- status 6
script line 1: BadStatus

== ListZonalShifts with status of a resource
call 0 0 0 ListZonalShifts {"resourceIdentifier":"arn:arc:resource/0000000000000001","status":"ENABLED"}
---- status 6
script line 1: BadStatus

== ListZonalShifts with status of a run
call 0 0 0 ListZonalShifts {"resourceIdentifier":"arn:arc:resource/0000000000000001","status":"PENDING"}
---- status 6
script line 1: BadStatus

== ListZonalShifts with status that is empty
call 0 0 0 ListZonalShifts {"resourceIdentifier":"arn:arc:resource/0000000000000001","status":""}
---- status 6
script line 1: BadStatus
