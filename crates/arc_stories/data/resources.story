# Managed resources: registering them, their zones, and what is read of them.

== a resource is registered, read and listed
call 0 0 0 RegisterManagedResource {"name":"lb","availabilityZones":["az1","az2"]}
call 0 0 0 GetManagedResource {"resourceIdentifier":"arn:arc:resource/0000000000000001"}
call 0 0 0 ListManagedResources
----
slot 0 token 1 200 {"resourceIdentifier":"arn:arc:resource/0000000000000001"}
slot 1 token 2 200 {"appliedShift":null,"availabilityZones":["az1","az2"],"name":"lb","resourceIdentifier":"arn:arc:resource/0000000000000001","zonalAutoshiftStatus":"DISABLED"}
slot 2 token 3 200 {"items":[{"name":"lb","resourceIdentifier":"arn:arc:resource/0000000000000001"}]}

== no resource is there at first
call 0 0 0 ListManagedResources
call 0 0 0 GetManagedResource {"resourceIdentifier":"arn:arc:resource/0000000000000001"}
----
slot 0 token 1 200 {"items":[]}
slot 1 token 2 404 {"Reason":"NotFound","Resource":"arn:arc:resource/0000000000000001","__type":"ResourceNotFoundException"}

== a name is taken once
call 0 0 0 RegisterManagedResource {"name":"lb","availabilityZones":["az1","az2"]}
call 0 0 0 RegisterManagedResource {"name":"lb","availabilityZones":["az3"]}
----
slot 0 token 1 200 {"resourceIdentifier":"arn:arc:resource/0000000000000001"}
slot 1 token 2 409 {"Reason":"NameTaken","Resource":"arn:arc:resource/0000000000000001","__type":"ConflictException"}

== upper case is another name
call 0 0 0 RegisterManagedResource {"name":"lb","availabilityZones":["az1","az2"]}
call 0 0 0 RegisterManagedResource {"name":"LB","availabilityZones":["az1","az2"]}
----
slot 0 token 1 200 {"resourceIdentifier":"arn:arc:resource/0000000000000001"}
slot 1 token 2 200 {"resourceIdentifier":"arn:arc:resource/0000000000000002"}

== a refused registration draws no identifier
call 0 0 0 RegisterManagedResource {"name":"lb","availabilityZones":["az1","az2"]}
call 0 0 0 RegisterManagedResource {"name":"lb","availabilityZones":["az1","az2"]}
call 0 0 0 RegisterManagedResource {"name":"api","availabilityZones":["az1","az2"]}
----
slot 0 token 1 200 {"resourceIdentifier":"arn:arc:resource/0000000000000001"}
slot 1 token 2 409 {"Reason":"NameTaken","Resource":"arn:arc:resource/0000000000000001","__type":"ConflictException"}
slot 2 token 3 200 {"resourceIdentifier":"arn:arc:resource/0000000000000002"}

== resources are listed by identifier, not by name
call 0 0 0 RegisterManagedResource {"name":"z","availabilityZones":["az1","az2"]}
call 0 0 0 RegisterManagedResource {"name":"a","availabilityZones":["az1","az2"]}
call 0 0 0 RegisterManagedResource {"name":"m","availabilityZones":["az1","az2"]}
call 0 0 0 ListManagedResources
----
slot 0 token 1 200 {"resourceIdentifier":"arn:arc:resource/0000000000000001"}
slot 1 token 2 200 {"resourceIdentifier":"arn:arc:resource/0000000000000002"}
slot 2 token 3 200 {"resourceIdentifier":"arn:arc:resource/0000000000000003"}
slot 3 token 4 200 {"items":[{"name":"z","resourceIdentifier":"arn:arc:resource/0000000000000001"},{"name":"a","resourceIdentifier":"arn:arc:resource/0000000000000002"},{"name":"m","resourceIdentifier":"arn:arc:resource/0000000000000003"}]}

== 64 resources are registered and no more
loop n 0 63
call 0 0 0 RegisterManagedResource {"name":"lb{n+1}","availabilityZones":["az1","az2"]}
endloop
call 0 0 0 RegisterManagedResource {"name":"lb65","availabilityZones":["az1","az2"]}
# the limit comes before the name
call 0 0 0 RegisterManagedResource {"name":"lb1","availabilityZones":["az1","az2"]}
call 0 0 0 GetManagedResource {"resourceIdentifier":"arn:arc:resource/0000000000000040"}
call 0 0 0 GetManagedResource {"resourceIdentifier":"arn:arc:resource/0000000000000041"}
----
loop n 0 63
slot {n} token {n+1} 200 {"resourceIdentifier":"arn:arc:resource/{n+1:016x}"}
endloop
slot 64 token 65 402 {"Count":64,"Reason":"Limit","__type":"ServiceLimitExceededException"}
slot 65 token 66 402 {"Count":64,"Reason":"Limit","__type":"ServiceLimitExceededException"}
slot 66 token 67 200 {"appliedShift":null,"availabilityZones":["az1","az2"],"name":"lb64","resourceIdentifier":"arn:arc:resource/0000000000000040","zonalAutoshiftStatus":"DISABLED"}
slot 67 token 68 404 {"Reason":"NotFound","Resource":"arn:arc:resource/0000000000000041","__type":"ResourceNotFoundException"}

== a resource has one zone or six, in the order given
call 0 0 0 RegisterManagedResource {"name":"a","availabilityZones":["z"]}
call 0 0 0 RegisterManagedResource {"name":"b","availabilityZones":["f","e","d","c","b","a"]}
call 0 0 0 GetManagedResource {"resourceIdentifier":"arn:arc:resource/0000000000000001"}
call 0 0 0 GetManagedResource {"resourceIdentifier":"arn:arc:resource/0000000000000002"}
----
slot 0 token 1 200 {"resourceIdentifier":"arn:arc:resource/0000000000000001"}
slot 1 token 2 200 {"resourceIdentifier":"arn:arc:resource/0000000000000002"}
slot 2 token 3 200 {"appliedShift":null,"availabilityZones":["z"],"name":"a","resourceIdentifier":"arn:arc:resource/0000000000000001","zonalAutoshiftStatus":"DISABLED"}
slot 3 token 4 200 {"appliedShift":null,"availabilityZones":["f","e","d","c","b","a"],"name":"b","resourceIdentifier":"arn:arc:resource/0000000000000002","zonalAutoshiftStatus":"DISABLED"}

== two resources share zones
call 0 0 0 RegisterManagedResource {"name":"lb","availabilityZones":["az1","az2"]}
call 0 0 0 RegisterManagedResource {"name":"api","availabilityZones":["az1","az2"]}
call 0 0 0 GetManagedResource {"resourceIdentifier":"arn:arc:resource/0000000000000002"}
----
slot 0 token 1 200 {"resourceIdentifier":"arn:arc:resource/0000000000000001"}
slot 1 token 2 200 {"resourceIdentifier":"arn:arc:resource/0000000000000002"}
slot 2 token 3 200 {"appliedShift":null,"availabilityZones":["az1","az2"],"name":"api","resourceIdentifier":"arn:arc:resource/0000000000000002","zonalAutoshiftStatus":"DISABLED"}

== a resource without a zone is none
call 0 0 0 RegisterManagedResource {"name":"lb","availabilityZones":[]}
---- status 6
script line 1: EmptyEntries

== seven zones are too many
call 0 0 0 RegisterManagedResource {"name":"lb","availabilityZones":["a","b","c","d","e","f","g"]}
---- status 6
script line 1: TooManyEntries

== a zone stands once in a resource
call 0 0 0 RegisterManagedResource {"name":"lb","availabilityZones":["az1","az2","az1"]}
---- status 6
script line 1: DoubledEntry

== a zone has one byte to 32
call 0 0 0 RegisterManagedResource {"name":"lb","availabilityZones":["z","zzzzzzzzzzzzzzzzzzzzzzzzzzzzzzzz"]}
call 0 0 0 GetManagedResource {"resourceIdentifier":"arn:arc:resource/0000000000000001"}
----
slot 0 token 1 200 {"resourceIdentifier":"arn:arc:resource/0000000000000001"}
slot 1 token 2 200 {"appliedShift":null,"availabilityZones":["z","zzzzzzzzzzzzzzzzzzzzzzzzzzzzzzzz"],"name":"lb","resourceIdentifier":"arn:arc:resource/0000000000000001","zonalAutoshiftStatus":"DISABLED"}

== a zone's bytes are counted, not its letters
call 0 0 0 RegisterManagedResource {"name":"lb","availabilityZones":["éééééééééééééééé"]}
call 0 0 0 GetManagedResource {"resourceIdentifier":"arn:arc:resource/0000000000000001"}
----
slot 0 token 1 200 {"resourceIdentifier":"arn:arc:resource/0000000000000001"}
slot 1 token 2 200 {"appliedShift":null,"availabilityZones":["éééééééééééééééé"],"name":"lb","resourceIdentifier":"arn:arc:resource/0000000000000001","zonalAutoshiftStatus":"DISABLED"}

== a zone of 33 bytes is none
call 0 0 0 RegisterManagedResource {"name":"lb","availabilityZones":["zzzzzzzzzzzzzzzzzzzzzzzzzzzzzzzzz"]}
---- status 6
script line 1: BadZone

== a zone of 17 letters of two bytes is none
call 0 0 0 RegisterManagedResource {"name":"lb","availabilityZones":["ééééééééééééééééé"]}
---- status 6
script line 1: BadZone

== an empty zone is none
call 0 0 0 RegisterManagedResource {"name":"lb","availabilityZones":[""]}
---- status 6
script line 1: BadZone

== a name has 64 bytes at most
call 0 0 0 RegisterManagedResource {"name":"nnnnnnnnnnnnnnnnnnnnnnnnnnnnnnnnnnnnnnnnnnnnnnnnnnnnnnnnnnnnnnnn","availabilityZones":["az1","az2"]}
call 0 0 0 GetManagedResource {"resourceIdentifier":"arn:arc:resource/0000000000000001"}
----
slot 0 token 1 200 {"resourceIdentifier":"arn:arc:resource/0000000000000001"}
slot 1 token 2 200 {"appliedShift":null,"availabilityZones":["az1","az2"],"name":"nnnnnnnnnnnnnnnnnnnnnnnnnnnnnnnnnnnnnnnnnnnnnnnnnnnnnnnnnnnnnnnn","resourceIdentifier":"arn:arc:resource/0000000000000001","zonalAutoshiftStatus":"DISABLED"}

== a name of 65 bytes is none
call 0 0 0 RegisterManagedResource {"name":"nnnnnnnnnnnnnnnnnnnnnnnnnnnnnnnnnnnnnnnnnnnnnnnnnnnnnnnnnnnnnnnnn","availabilityZones":["az1","az2"]}
---- status 6
script line 1: BadName

== an empty name is none
call 0 0 0 RegisterManagedResource {"name":"","availabilityZones":["az1","az2"]}
---- status 6
script line 1: BadName

== an identifier is read in either case and written in lower case
loop n 0 9
call 0 0 0 RegisterManagedResource {"name":"lb{n+1}","availabilityZones":["az1","az2"]}
endloop
call 0 0 0 GetManagedResource {"resourceIdentifier":"arn:arc:resource/000000000000000A"}
call 0 0 0 GetManagedResource {"resourceIdentifier":"arn:arc:resource/00000000000000AB"}
----
loop n 0 9
slot {n} token {n+1} 200 {"resourceIdentifier":"arn:arc:resource/{n+1:016x}"}
endloop
slot 10 token 11 200 {"appliedShift":null,"availabilityZones":["az1","az2"],"name":"lb10","resourceIdentifier":"arn:arc:resource/000000000000000a","zonalAutoshiftStatus":"DISABLED"}
slot 11 token 12 404 {"Reason":"NotFound","Resource":"arn:arc:resource/00000000000000ab","__type":"ResourceNotFoundException"}

== a token ahead comes before every refusal
call 0 0 0 RegisterManagedResource {"name":"lb","availabilityZones":["az1","az2"]}
call 0 0 9 GetManagedResource {"resourceIdentifier":"arn:arc:resource/0000000000000002"}
call 0 0 3 RegisterManagedResource {"name":"api","availabilityZones":["a"]}
# that one registered nothing
call 0 0 3 ListManagedResources
----
slot 0 token 1 200 {"resourceIdentifier":"arn:arc:resource/0000000000000001"}
slot 1 token 2 409 {"Place":1,"Reason":"TokenAhead","Token":9,"__type":"ConflictException"}
slot 2 token 3 409 {"Place":2,"Reason":"TokenAhead","Token":3,"__type":"ConflictException"}
slot 3 token 4 200 {"items":[{"name":"lb","resourceIdentifier":"arn:arc:resource/0000000000000001"}]}

== what is read shows the shift that is applied
call 0 0 0 RegisterManagedResource {"name":"lb","availabilityZones":["az1","az2"]}
call 0 0 0 StartZonalShift {"resourceIdentifier":"arn:arc:resource/0000000000000001","awayFrom":"az1","expiresIn":"1m","comment":""}
call 0 59999 0 GetManagedResource {"resourceIdentifier":"arn:arc:resource/0000000000000001"}
call 0 60000 0 GetManagedResource {"resourceIdentifier":"arn:arc:resource/0000000000000001"}
----
slot 0 token 1 200 {"resourceIdentifier":"arn:arc:resource/0000000000000001"}
slot 1 token 2 200 {"awayFrom":"az1","comment":"","expiryTime":60000,"resourceIdentifier":"arn:arc:resource/0000000000000001","startTime":0,"status":"ACTIVE","zonalShiftId":"00000000-0000-0000-0000-000000000001"}
slot 2 token 3 200 {"appliedShift":{"awayFrom":"az1","kind":"CUSTOMER"},"availabilityZones":["az1","az2"],"name":"lb","resourceIdentifier":"arn:arc:resource/0000000000000001","zonalAutoshiftStatus":"DISABLED"}
slot 3 token 4 200 {"appliedShift":null,"availabilityZones":["az1","az2"],"name":"lb","resourceIdentifier":"arn:arc:resource/0000000000000001","zonalAutoshiftStatus":"DISABLED"}
