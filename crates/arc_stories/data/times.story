# Times: how long a shift lasts, and the time of a call.

== a shift of one minute
call 0 0 0 RegisterManagedResource {"name":"r","availabilityZones":["z"]}
call 0 1000 0 StartZonalShift {"resourceIdentifier":"arn:arc:resource/0000000000000001","awayFrom":"z","expiresIn":"1m","comment":""}
----
slot 0 token 1 200 {"resourceIdentifier":"arn:arc:resource/0000000000000001"}
slot 1 token 2 200 {"awayFrom":"z","comment":"","expiryTime":61000,"resourceIdentifier":"arn:arc:resource/0000000000000001","startTime":1000,"status":"ACTIVE","zonalShiftId":"00000000-0000-0000-0000-000000000001"}

== a shift of 4,320 minutes
call 0 0 0 RegisterManagedResource {"name":"r","availabilityZones":["z"]}
call 0 1000 0 StartZonalShift {"resourceIdentifier":"arn:arc:resource/0000000000000001","awayFrom":"z","expiresIn":"4320m","comment":""}
----
slot 0 token 1 200 {"resourceIdentifier":"arn:arc:resource/0000000000000001"}
slot 1 token 2 200 {"awayFrom":"z","comment":"","expiryTime":259201000,"resourceIdentifier":"arn:arc:resource/0000000000000001","startTime":1000,"status":"ACTIVE","zonalShiftId":"00000000-0000-0000-0000-000000000001"}

== a shift of one hour
call 0 0 0 RegisterManagedResource {"name":"r","availabilityZones":["z"]}
call 0 1000 0 StartZonalShift {"resourceIdentifier":"arn:arc:resource/0000000000000001","awayFrom":"z","expiresIn":"1h","comment":""}
----
slot 0 token 1 200 {"resourceIdentifier":"arn:arc:resource/0000000000000001"}
slot 1 token 2 200 {"awayFrom":"z","comment":"","expiryTime":3601000,"resourceIdentifier":"arn:arc:resource/0000000000000001","startTime":1000,"status":"ACTIVE","zonalShiftId":"00000000-0000-0000-0000-000000000001"}

== a shift of 72 hours
call 0 0 0 RegisterManagedResource {"name":"r","availabilityZones":["z"]}
call 0 1000 0 StartZonalShift {"resourceIdentifier":"arn:arc:resource/0000000000000001","awayFrom":"z","expiresIn":"72h","comment":""}
----
slot 0 token 1 200 {"resourceIdentifier":"arn:arc:resource/0000000000000001"}
slot 1 token 2 200 {"awayFrom":"z","comment":"","expiryTime":259201000,"resourceIdentifier":"arn:arc:resource/0000000000000001","startTime":1000,"status":"ACTIVE","zonalShiftId":"00000000-0000-0000-0000-000000000001"}

== a shift of 90 minutes
call 0 0 0 RegisterManagedResource {"name":"r","availabilityZones":["z"]}
call 0 1000 0 StartZonalShift {"resourceIdentifier":"arn:arc:resource/0000000000000001","awayFrom":"z","expiresIn":"90m","comment":""}
----
slot 0 token 1 200 {"resourceIdentifier":"arn:arc:resource/0000000000000001"}
slot 1 token 2 200 {"awayFrom":"z","comment":"","expiryTime":5401000,"resourceIdentifier":"arn:arc:resource/0000000000000001","startTime":1000,"status":"ACTIVE","zonalShiftId":"00000000-0000-0000-0000-000000000001"}

== a shift of ten hours
call 0 0 0 RegisterManagedResource {"name":"r","availabilityZones":["z"]}
call 0 1000 0 StartZonalShift {"resourceIdentifier":"arn:arc:resource/0000000000000001","awayFrom":"z","expiresIn":"10h","comment":""}
----
slot 0 token 1 200 {"resourceIdentifier":"arn:arc:resource/0000000000000001"}
slot 1 token 2 200 {"awayFrom":"z","comment":"","expiryTime":36001000,"resourceIdentifier":"arn:arc:resource/0000000000000001","startTime":1000,"status":"ACTIVE","zonalShiftId":"00000000-0000-0000-0000-000000000001"}

== a time to go that is empty
call 0 0 0 UpdateZonalShift {"zonalShiftId":"00000000-0000-0000-0000-000000000001","expiresIn":""}
---- status 6
script line 1: BadExpiry

== a time to go of minutes without a number
call 0 0 0 UpdateZonalShift {"zonalShiftId":"00000000-0000-0000-0000-000000000001","expiresIn":"m"}
---- status 6
script line 1: BadExpiry

== a time to go of hours without a number
call 0 0 0 UpdateZonalShift {"zonalShiftId":"00000000-0000-0000-0000-000000000001","expiresIn":"h"}
---- status 6
script line 1: BadExpiry

== a time to go of no minutes
call 0 0 0 UpdateZonalShift {"zonalShiftId":"00000000-0000-0000-0000-000000000001","expiresIn":"0m"}
---- status 6
script line 1: BadExpiry

== a time to go of no hours
call 0 0 0 UpdateZonalShift {"zonalShiftId":"00000000-0000-0000-0000-000000000001","expiresIn":"0h"}
---- status 6
script line 1: BadExpiry

== a time to go of minutes with a leading zero
call 0 0 0 UpdateZonalShift {"zonalShiftId":"00000000-0000-0000-0000-000000000001","expiresIn":"01m"}
---- status 6
script line 1: BadExpiry

== a time to go of hours with a leading zero
call 0 0 0 UpdateZonalShift {"zonalShiftId":"00000000-0000-0000-0000-000000000001","expiresIn":"01h"}
---- status 6
script line 1: BadExpiry

== a time to go of 4,321 minutes
call 0 0 0 UpdateZonalShift {"zonalShiftId":"00000000-0000-0000-0000-000000000001","expiresIn":"4321m"}
---- status 6
script line 1: BadExpiry

== a time to go of 73 hours
call 0 0 0 UpdateZonalShift {"zonalShiftId":"00000000-0000-0000-0000-000000000001","expiresIn":"73h"}
---- status 6
script line 1: BadExpiry

== a time to go of a number alone
call 0 0 0 UpdateZonalShift {"zonalShiftId":"00000000-0000-0000-0000-000000000001","expiresIn":"60"}
---- status 6
script line 1: BadExpiry

== a time to go of days
call 0 0 0 UpdateZonalShift {"zonalShiftId":"00000000-0000-0000-0000-000000000001","expiresIn":"1d"}
---- status 6
script line 1: BadExpiry

== a time to go of seconds
call 0 0 0 UpdateZonalShift {"zonalShiftId":"00000000-0000-0000-0000-000000000001","expiresIn":"60s"}
---- status 6
script line 1: BadExpiry

== a time to go of minutes by a capital letter
call 0 0 0 UpdateZonalShift {"zonalShiftId":"00000000-0000-0000-0000-000000000001","expiresIn":"1M"}
---- status 6
script line 1: BadExpiry

== a time to go of hours by a capital letter
call 0 0 0 UpdateZonalShift {"zonalShiftId":"00000000-0000-0000-0000-000000000001","expiresIn":"1H"}
---- status 6
script line 1: BadExpiry

== a time to go of minutes with a plus sign
call 0 0 0 UpdateZonalShift {"zonalShiftId":"00000000-0000-0000-0000-000000000001","expiresIn":"+1m"}
---- status 6
script line 1: BadExpiry

== a time to go of minutes below 0
call 0 0 0 UpdateZonalShift {"zonalShiftId":"00000000-0000-0000-0000-000000000001","expiresIn":"-1m"}
---- status 6
script line 1: BadExpiry

== a time to go of minutes behind a blank
call 0 0 0 UpdateZonalShift {"zonalShiftId":"00000000-0000-0000-0000-000000000001","expiresIn":" 1m"}
---- status 6
script line 1: BadExpiry

== a time to go of minutes with a blank between
call 0 0 0 UpdateZonalShift {"zonalShiftId":"00000000-0000-0000-0000-000000000001","expiresIn":"1 m"}
---- status 6
script line 1: BadExpiry

== a time to go of minutes before a blank
call 0 0 0 UpdateZonalShift {"zonalShiftId":"00000000-0000-0000-0000-000000000001","expiresIn":"1m "}
---- status 6
script line 1: BadExpiry

== a time to go of minutes twice
call 0 0 0 UpdateZonalShift {"zonalShiftId":"00000000-0000-0000-0000-000000000001","expiresIn":"1mm"}
---- status 6
script line 1: BadExpiry

== a time to go of hours and minutes in one
call 0 0 0 UpdateZonalShift {"zonalShiftId":"00000000-0000-0000-0000-000000000001","expiresIn":"1hm"}
---- status 6
script line 1: BadExpiry

== a time to go of hours and minutes
call 0 0 0 UpdateZonalShift {"zonalShiftId":"00000000-0000-0000-0000-000000000001","expiresIn":"1h30m"}
---- status 6
script line 1: BadExpiry

== a time to go of hours with a fraction
call 0 0 0 UpdateZonalShift {"zonalShiftId":"00000000-0000-0000-0000-000000000001","expiresIn":"1.5h"}
---- status 6
script line 1: BadExpiry

== a time to go of minutes in hexadecimal digits
call 0 0 0 UpdateZonalShift {"zonalShiftId":"00000000-0000-0000-0000-000000000001","expiresIn":"0x1m"}
---- status 6
script line 1: BadExpiry

== a time to go of minutes of 20 digits
call 0 0 0 UpdateZonalShift {"zonalShiftId":"00000000-0000-0000-0000-000000000001","expiresIn":"99999999999999999999m"}
---- status 6
script line 1: BadExpiry

== a time to go of 1 beyond 2 to the power of 32 in minutes
call 0 0 0 UpdateZonalShift {"zonalShiftId":"00000000-0000-0000-0000-000000000001","expiresIn":"4294967297m"}
---- status 6
script line 1: BadExpiry

== a time to go of 1 beyond 2 to the power of 64 in hours
call 0 0 0 UpdateZonalShift {"zonalShiftId":"00000000-0000-0000-0000-000000000001","expiresIn":"18446744073709551617h"}
---- status 6
script line 1: BadExpiry

== a time to go of minutes in digits of another script
call 0 0 0 UpdateZonalShift {"zonalShiftId":"00000000-0000-0000-0000-000000000001","expiresIn":"٣m"}
---- status 6
script line 1: BadExpiry

== a time to go that is a number
call 0 0 0 UpdateZonalShift {"zonalShiftId":"00000000-0000-0000-0000-000000000001","expiresIn":60}
---- status 6
script line 1: WrongType

== a shift that starts in the last millisecond of the year 9999 ends behind it
call 0 0 0 RegisterManagedResource {"name":"r","availabilityZones":["z"]}
call 0 253402300799999 0 StartZonalShift {"resourceIdentifier":"arn:arc:resource/0000000000000001","awayFrom":"z","expiresIn":"72h","comment":""}
----
slot 0 token 1 200 {"resourceIdentifier":"arn:arc:resource/0000000000000001"}
slot 1 token 2 200 {"awayFrom":"z","comment":"","expiryTime":253402559999999,"resourceIdentifier":"arn:arc:resource/0000000000000001","startTime":253402300799999,"status":"ACTIVE","zonalShiftId":"00000000-0000-0000-0000-000000000001"}

== the time of the list doesn't fall
call 0 0 0 RegisterManagedResource {"name":"r","availabilityZones":["z"]}
call 0 5000 0 StartZonalShift {"resourceIdentifier":"arn:arc:resource/0000000000000001","awayFrom":"z","expiresIn":"1m","comment":""}
call 0 1000 0 UpdateZonalShift {"zonalShiftId":"00000000-0000-0000-0000-000000000001","expiresIn":"1m"}
----
slot 0 token 1 200 {"resourceIdentifier":"arn:arc:resource/0000000000000001"}
slot 1 token 2 200 {"awayFrom":"z","comment":"","expiryTime":65000,"resourceIdentifier":"arn:arc:resource/0000000000000001","startTime":5000,"status":"ACTIVE","zonalShiftId":"00000000-0000-0000-0000-000000000001"}
slot 2 token 3 200 {"awayFrom":"z","comment":"","expiryTime":65000,"resourceIdentifier":"arn:arc:resource/0000000000000001","startTime":5000,"status":"ACTIVE","zonalShiftId":"00000000-0000-0000-0000-000000000001"}
