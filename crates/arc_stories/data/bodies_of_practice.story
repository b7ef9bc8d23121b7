# The bodies of the configurations of practice runs.

== nothing blocks a run where nothing is given
call 0 0 0 RegisterManagedResource {"name":"r","availabilityZones":["z"]}
call 0 0 0 CreatePracticeRunConfiguration {"resourceIdentifier":"arn:arc:resource/0000000000000001","blockedDates":null,"blockingAlarms":null,"outcomeAlarms":[{"alarmIdentifier":"o"}]}
call 0 0 0 StartPracticeRun {"resourceIdentifier":"arn:arc:resource/0000000000000001","awayFrom":"z","comment":""}
----
slot 0 token 1 200 {"resourceIdentifier":"arn:arc:resource/0000000000000001"}
slot 1 token 2 200 {}
slot 2 token 3 200 {"awayFrom":"z","comment":"","expiryTime":1800000,"practiceRunOutcome":"PENDING","resourceIdentifier":"arn:arc:resource/0000000000000001","startTime":0,"status":"ACTIVE","zonalShiftId":"00000000-0000-0000-0000-000000000001"}

== lists that are empty block nothing
call 0 0 0 RegisterManagedResource {"name":"r","availabilityZones":["z"]}
call 0 0 0 CreatePracticeRunConfiguration {"resourceIdentifier":"arn:arc:resource/0000000000000001","blockedDates":[],"blockedWindows":[],"blockingAlarms":[],"outcomeAlarms":[{"alarmIdentifier":"o"}]}
call 0 0 0 StartPracticeRun {"resourceIdentifier":"arn:arc:resource/0000000000000001","awayFrom":"z","comment":""}
----
slot 0 token 1 200 {"resourceIdentifier":"arn:arc:resource/0000000000000001"}
slot 1 token 2 200 {}
slot 2 token 3 200 {"awayFrom":"z","comment":"","expiryTime":1800000,"practiceRunOutcome":"PENDING","resourceIdentifier":"arn:arc:resource/0000000000000001","startTime":0,"status":"ACTIVE","zonalShiftId":"00000000-0000-0000-0000-000000000001"}

== a configuration takes each of its lists
call 0 0 0 RegisterManagedResource {"name":"r","availabilityZones":["z"]}
call 0 0 0 CreatePracticeRunConfiguration {"resourceIdentifier":"arn:arc:resource/0000000000000001","blockedDates":["1970-01-01"],"blockedWindows":["Fri:00:00-Fri:00:01"],"blockingAlarms":[{"alarmIdentifier":"b"}],"outcomeAlarms":[{"alarmIdentifier":"o"}]}
call 0 0 0 StartPracticeRun {"resourceIdentifier":"arn:arc:resource/0000000000000001","awayFrom":"z","comment":""}
call 0 86400000 0 StartPracticeRun {"resourceIdentifier":"arn:arc:resource/0000000000000001","awayFrom":"z","comment":""}
call 0 172800000 0 SetAlarmState {"alarmIdentifier":"b","state":"ALARM"}
call 0 172800000 0 StartPracticeRun {"resourceIdentifier":"arn:arc:resource/0000000000000001","awayFrom":"z","comment":""}
call 0 172800000 0 SetAlarmState {"alarmIdentifier":"b","state":"OK"}
call 0 172800000 0 SetAlarmState {"alarmIdentifier":"o","state":"ALARM"}
call 0 172800000 0 StartPracticeRun {"resourceIdentifier":"arn:arc:resource/0000000000000001","awayFrom":"z","comment":""}
----
slot 0 token 1 200 {"resourceIdentifier":"arn:arc:resource/0000000000000001"}
slot 1 token 2 200 {}
slot 2 token 3 409 {"Cause":"BlockedDate","Reason":"Blocked","__type":"ConflictException"}
slot 3 token 4 409 {"Cause":"BlockedWindow","Reason":"Blocked","__type":"ConflictException"}
slot 4 token 5 200 {}
slot 5 token 6 409 {"Cause":"BlockingAlarm","Reason":"Blocked","__type":"ConflictException"}
slot 6 token 7 200 {}
slot 7 token 8 200 {}
slot 8 token 9 409 {"Cause":"OutcomeAlarm","Reason":"Blocked","__type":"ConflictException"}

== an update keeps what it doesn't give
call 0 0 0 RegisterManagedResource {"name":"r","availabilityZones":["z"]}
call 0 0 0 CreatePracticeRunConfiguration {"resourceIdentifier":"arn:arc:resource/0000000000000001","blockedDates":["1970-01-01"],"blockedWindows":["Fri:00:00-Fri:00:01"],"blockingAlarms":[{"alarmIdentifier":"b"}],"outcomeAlarms":[{"alarmIdentifier":"o"}]}
call 0 0 0 UpdatePracticeRunConfiguration {"resourceIdentifier":"arn:arc:resource/0000000000000001"}
call 0 0 0 StartPracticeRun {"resourceIdentifier":"arn:arc:resource/0000000000000001","awayFrom":"z","comment":""}
call 0 86400000 0 StartPracticeRun {"resourceIdentifier":"arn:arc:resource/0000000000000001","awayFrom":"z","comment":""}
call 0 172800000 0 SetAlarmState {"alarmIdentifier":"b","state":"ALARM"}
call 0 172800000 0 StartPracticeRun {"resourceIdentifier":"arn:arc:resource/0000000000000001","awayFrom":"z","comment":""}
call 0 172800000 0 SetAlarmState {"alarmIdentifier":"b","state":"OK"}
call 0 172800000 0 SetAlarmState {"alarmIdentifier":"o","state":"ALARM"}
call 0 172800000 0 StartPracticeRun {"resourceIdentifier":"arn:arc:resource/0000000000000001","awayFrom":"z","comment":""}
----
slot 0 token 1 200 {"resourceIdentifier":"arn:arc:resource/0000000000000001"}
slot 1 token 2 200 {}
slot 2 token 3 200 {}
slot 3 token 4 409 {"Cause":"BlockedDate","Reason":"Blocked","__type":"ConflictException"}
slot 4 token 5 409 {"Cause":"BlockedWindow","Reason":"Blocked","__type":"ConflictException"}
slot 5 token 6 200 {}
slot 6 token 7 409 {"Cause":"BlockingAlarm","Reason":"Blocked","__type":"ConflictException"}
slot 7 token 8 200 {}
slot 8 token 9 200 {}
slot 9 token 10 409 {"Cause":"OutcomeAlarm","Reason":"Blocked","__type":"ConflictException"}

== an update replaces the list that it gives
call 0 0 0 RegisterManagedResource {"name":"r","availabilityZones":["z"]}
call 0 0 0 CreatePracticeRunConfiguration {"resourceIdentifier":"arn:arc:resource/0000000000000001","blockedDates":["1970-01-01"],"blockedWindows":["Thu:00:00-Fri:00:00"],"outcomeAlarms":[{"alarmIdentifier":"o"}]}
call 0 0 0 UpdatePracticeRunConfiguration {"resourceIdentifier":"arn:arc:resource/0000000000000001","blockedDates":["1970-01-02"]}
call 0 0 0 StartPracticeRun {"resourceIdentifier":"arn:arc:resource/0000000000000001","awayFrom":"z","comment":""}
call 0 0 0 UpdatePracticeRunConfiguration {"resourceIdentifier":"arn:arc:resource/0000000000000001","blockedWindows":[]}
call 0 0 0 StartPracticeRun {"resourceIdentifier":"arn:arc:resource/0000000000000001","awayFrom":"z","comment":""}
----
slot 0 token 1 200 {"resourceIdentifier":"arn:arc:resource/0000000000000001"}
slot 1 token 2 200 {}
slot 2 token 3 200 {}
slot 3 token 4 409 {"Cause":"BlockedWindow","Reason":"Blocked","__type":"ConflictException"}
slot 4 token 5 200 {}
slot 5 token 6 200 {"awayFrom":"z","comment":"","expiryTime":1800000,"practiceRunOutcome":"PENDING","resourceIdentifier":"arn:arc:resource/0000000000000001","startTime":0,"status":"ACTIVE","zonalShiftId":"00000000-0000-0000-0000-000000000001"}

== an update replaces the alarms that it gives
call 0 0 0 RegisterManagedResource {"name":"r","availabilityZones":["z"]}
call 0 0 0 CreatePracticeRunConfiguration {"resourceIdentifier":"arn:arc:resource/0000000000000001","blockingAlarms":[{"alarmIdentifier":"b"}],"outcomeAlarms":[{"alarmIdentifier":"o"}]}
call 0 0 0 SetAlarmState {"alarmIdentifier":"b","state":"ALARM"}
call 0 0 0 SetAlarmState {"alarmIdentifier":"o","state":"ALARM"}
call 0 0 0 UpdatePracticeRunConfiguration {"resourceIdentifier":"arn:arc:resource/0000000000000001","blockingAlarms":[],"outcomeAlarms":[{"alarmIdentifier":"p"},{"alarmIdentifier":"p"}]}
call 0 0 0 StartPracticeRun {"resourceIdentifier":"arn:arc:resource/0000000000000001","awayFrom":"z","comment":""}
----
slot 0 token 1 200 {"resourceIdentifier":"arn:arc:resource/0000000000000001"}
slot 1 token 2 200 {}
slot 2 token 3 200 {}
slot 3 token 4 200 {}
slot 4 token 5 200 {}
slot 5 token 6 200 {"awayFrom":"z","comment":"","expiryTime":1800000,"practiceRunOutcome":"PENDING","resourceIdentifier":"arn:arc:resource/0000000000000001","startTime":0,"status":"ACTIVE","zonalShiftId":"00000000-0000-0000-0000-000000000001"}

== a configuration with as much as it may have, in which dates, windows and alarms may stand twice
call 0 0 0 RegisterManagedResource {"name":"r","availabilityZones":["z"]}
call 0 0 0 CreatePracticeRunConfiguration {"resourceIdentifier":"arn:arc:resource/0000000000000001","blockedDates":["1970-01-01","1970-01-01","1970-01-01","1970-01-01","1970-01-01","1970-01-01","1970-01-01","1970-01-01","1970-01-01","1970-01-01","1970-01-01","1970-01-01","1970-01-01","1970-01-01","1970-01-01"],"blockedWindows":["Tue:00:00-Mon:00:00","Tue:00:00-Mon:00:00","Tue:00:00-Mon:00:00","Tue:00:00-Mon:00:00","Tue:00:00-Mon:00:00","Tue:00:00-Mon:00:00","Tue:00:00-Mon:00:00","Tue:00:00-Mon:00:00","Tue:00:00-Mon:00:00","Tue:00:00-Mon:00:00","Tue:00:00-Mon:00:00","Tue:00:00-Mon:00:00","Tue:00:00-Mon:00:00","Tue:00:00-Mon:00:00","Tue:00:00-Mon:00:00"],"blockingAlarms":[{"alarmIdentifier":"b"},{"alarmIdentifier":"b"},{"alarmIdentifier":"b"},{"alarmIdentifier":"b"}],"outcomeAlarms":[{"alarmIdentifier":"o"},{"alarmIdentifier":"o"},{"alarmIdentifier":"o"},{"alarmIdentifier":"o"}]}
call 0 0 0 StartPracticeRun {"resourceIdentifier":"arn:arc:resource/0000000000000001","awayFrom":"z","comment":""}
call 0 259200000 0 StartPracticeRun {"resourceIdentifier":"arn:arc:resource/0000000000000001","awayFrom":"z","comment":""}
call 0 0 0 UpdatePracticeRunConfiguration {"resourceIdentifier":"arn:arc:resource/0000000000000001","blockedDates":["1970-01-01","1970-01-01","1970-01-01","1970-01-01","1970-01-01","1970-01-01","1970-01-01","1970-01-01","1970-01-01","1970-01-01","1970-01-01","1970-01-01","1970-01-01","1970-01-01","1970-01-01"],"blockedWindows":["Tue:00:00-Mon:00:00","Tue:00:00-Mon:00:00","Tue:00:00-Mon:00:00","Tue:00:00-Mon:00:00","Tue:00:00-Mon:00:00","Tue:00:00-Mon:00:00","Tue:00:00-Mon:00:00","Tue:00:00-Mon:00:00","Tue:00:00-Mon:00:00","Tue:00:00-Mon:00:00","Tue:00:00-Mon:00:00","Tue:00:00-Mon:00:00","Tue:00:00-Mon:00:00","Tue:00:00-Mon:00:00","Tue:00:00-Mon:00:00"],"blockingAlarms":[{"alarmIdentifier":"b"},{"alarmIdentifier":"b"},{"alarmIdentifier":"b"},{"alarmIdentifier":"b"}],"outcomeAlarms":[{"alarmIdentifier":"o"},{"alarmIdentifier":"o"},{"alarmIdentifier":"o"},{"alarmIdentifier":"o"}]}
----
slot 0 token 1 200 {"resourceIdentifier":"arn:arc:resource/0000000000000001"}
slot 1 token 2 200 {}
slot 2 token 3 409 {"Cause":"BlockedDate","Reason":"Blocked","__type":"ConflictException"}
slot 3 token 4 409 {"Cause":"BlockedWindow","Reason":"Blocked","__type":"ConflictException"}
slot 4 token 5 200 {}

== the name of an alarm has up to 64 bytes
call 0 0 0 RegisterManagedResource {"name":"r","availabilityZones":["z"]}
call 0 0 0 CreatePracticeRunConfiguration {"resourceIdentifier":"arn:arc:resource/0000000000000001","outcomeAlarms":[{"alarmIdentifier":"xxxxxxxxxxxxxxxxxxxxxxxxxxxxxxxxxxxxxxxxxxxxxxxxxxxxxxxxxxxxxxxx"}]}
call 0 0 0 SetAlarmState {"alarmIdentifier":"xxxxxxxxxxxxxxxxxxxxxxxxxxxxxxxxxxxxxxxxxxxxxxxxxxxxxxxxxxxxxxxx","state":"ALARM"}
call 0 0 0 StartPracticeRun {"resourceIdentifier":"arn:arc:resource/0000000000000001","awayFrom":"z","comment":""}
call 0 0 0 SetAlarmState {"alarmIdentifier":"xxxxxxxxxxxxxxxxxxxxxxxxxxxxxxxxxxxxxxxxxxxxxxxxxxxxxxxxxxxxxxxx","state":"OK"}
call 0 0 0 StartPracticeRun {"resourceIdentifier":"arn:arc:resource/0000000000000001","awayFrom":"z","comment":""}
----
slot 0 token 1 200 {"resourceIdentifier":"arn:arc:resource/0000000000000001"}
slot 1 token 2 200 {}
slot 2 token 3 200 {}
slot 3 token 4 409 {"Cause":"OutcomeAlarm","Reason":"Blocked","__type":"ConflictException"}
slot 4 token 5 200 {}
slot 5 token 6 200 {"awayFrom":"z","comment":"","expiryTime":1800000,"practiceRunOutcome":"PENDING","resourceIdentifier":"arn:arc:resource/0000000000000001","startTime":0,"status":"ACTIVE","zonalShiftId":"00000000-0000-0000-0000-000000000001"}

== an alarm has other members, which are passed over
call 0 0 0 RegisterManagedResource {"name":"r","availabilityZones":["z"]}
call 0 0 0 CreatePracticeRunConfiguration {"resourceIdentifier":"arn:arc:resource/0000000000000001","outcomeAlarms":[{"region":1,"alarmIdentifier":"a","alarmIdentifier":"o"}]}
call 0 0 0 SetAlarmState {"alarmIdentifier":"a","state":"ALARM"}
call 0 0 0 StartPracticeRun {"resourceIdentifier":"arn:arc:resource/0000000000000001","awayFrom":"z","comment":""}
----
slot 0 token 1 200 {"resourceIdentifier":"arn:arc:resource/0000000000000001"}
slot 1 token 2 200 {}
slot 2 token 3 200 {}
slot 3 token 4 200 {"awayFrom":"z","comment":"","expiryTime":1800000,"practiceRunOutcome":"PENDING","resourceIdentifier":"arn:arc:resource/0000000000000001","startTime":0,"status":"ACTIVE","zonalShiftId":"00000000-0000-0000-0000-000000000001"}

== CreatePracticeRunConfiguration without resourceIdentifier
call 0 0 0 CreatePracticeRunConfiguration {"blockedDates":1,"blockedWindows":1,"blockingAlarms":1,"outcomeAlarms":1}
---- status 6
script line 1: MissingMember

== CreatePracticeRunConfiguration with resourceIdentifier that is a number
call 0 0 0 CreatePracticeRunConfiguration {"resourceIdentifier":1,"blockedDates":1,"blockedWindows":1,"blockingAlarms":1,"outcomeAlarms":1}
---- status 6
script line 1: WrongType

== CreatePracticeRunConfiguration with resourceIdentifier of another kind
call 0 0 0 CreatePracticeRunConfiguration {"resourceIdentifier":"arn:arc:panel/0000000000000001","blockedDates":1,"blockedWindows":1,"blockingAlarms":1,"outcomeAlarms":1}
---- status 6
script line 1: BadId

== CreatePracticeRunConfiguration with blockedDates that are a number
call 0 0 0 CreatePracticeRunConfiguration {"resourceIdentifier":"arn:arc:resource/0000000000000001","blockedDates":1,"blockedWindows":1,"blockingAlarms":1,"outcomeAlarms":1}
---- status 6
script line 1: WrongType

== CreatePracticeRunConfiguration with blockedDates that are an object
call 0 0 0 CreatePracticeRunConfiguration {"resourceIdentifier":"arn:arc:resource/0000000000000001","blockedDates":{},"blockedWindows":1,"blockingAlarms":1,"outcomeAlarms":1}
---- status 6
script line 1: WrongType

== CreatePracticeRunConfiguration with blockedDates of which there are 16, whatever they are
call 0 0 0 CreatePracticeRunConfiguration {"resourceIdentifier":"arn:arc:resource/0000000000000001","blockedDates":[1,1,1,1,1,1,1,1,1,1,1,1,1,1,1,1],"blockedWindows":1,"blockingAlarms":1,"outcomeAlarms":1}
---- status 6
script line 1: TooManyEntries

== CreatePracticeRunConfiguration with blockedDates of which one is a number
call 0 0 0 CreatePracticeRunConfiguration {"resourceIdentifier":"arn:arc:resource/0000000000000001","blockedDates":[1,1,1,1,1,1,1,1,1,1,1,1,1,1,1],"blockedWindows":1,"blockingAlarms":1,"outcomeAlarms":1}
---- status 6
script line 1: WrongType

== CreatePracticeRunConfiguration with blockedDates of which one is null
call 0 0 0 CreatePracticeRunConfiguration {"resourceIdentifier":"arn:arc:resource/0000000000000001","blockedDates":[null],"blockedWindows":1,"blockingAlarms":1,"outcomeAlarms":1}
---- status 6
script line 1: WrongType

== CreatePracticeRunConfiguration with blockedDates of which one isn't in the calendar
call 0 0 0 CreatePracticeRunConfiguration {"resourceIdentifier":"arn:arc:resource/0000000000000001","blockedDates":["1970-01-01","2026-02-30"],"blockedWindows":1,"blockingAlarms":1,"outcomeAlarms":1}
---- status 6
script line 1: BadDate

== CreatePracticeRunConfiguration with blockedWindows that are a number
call 0 0 0 CreatePracticeRunConfiguration {"resourceIdentifier":"arn:arc:resource/0000000000000001","blockedDates":[],"blockedWindows":1,"blockingAlarms":1,"outcomeAlarms":1}
---- status 6
script line 1: WrongType

== CreatePracticeRunConfiguration with blockedWindows that are an object
call 0 0 0 CreatePracticeRunConfiguration {"resourceIdentifier":"arn:arc:resource/0000000000000001","blockedDates":[],"blockedWindows":{},"blockingAlarms":1,"outcomeAlarms":1}
---- status 6
script line 1: WrongType

== CreatePracticeRunConfiguration with blockedWindows of which there are 16, whatever they are
call 0 0 0 CreatePracticeRunConfiguration {"resourceIdentifier":"arn:arc:resource/0000000000000001","blockedDates":[],"blockedWindows":[1,1,1,1,1,1,1,1,1,1,1,1,1,1,1,1],"blockingAlarms":1,"outcomeAlarms":1}
---- status 6
script line 1: TooManyEntries

== CreatePracticeRunConfiguration with blockedWindows of which one is a number
call 0 0 0 CreatePracticeRunConfiguration {"resourceIdentifier":"arn:arc:resource/0000000000000001","blockedDates":[],"blockedWindows":[1,1,1,1,1,1,1,1,1,1,1,1,1,1,1],"blockingAlarms":1,"outcomeAlarms":1}
---- status 6
script line 1: WrongType

== CreatePracticeRunConfiguration with blockedWindows of which one is null
call 0 0 0 CreatePracticeRunConfiguration {"resourceIdentifier":"arn:arc:resource/0000000000000001","blockedDates":[],"blockedWindows":[null],"blockingAlarms":1,"outcomeAlarms":1}
---- status 6
script line 1: WrongType

== CreatePracticeRunConfiguration with blockedWindows of which one is empty
call 0 0 0 CreatePracticeRunConfiguration {"resourceIdentifier":"arn:arc:resource/0000000000000001","blockedDates":[],"blockedWindows":["Mon:00:00-Mon:00:01","Mon:00:00-Mon:00:00"],"blockingAlarms":1,"outcomeAlarms":1}
---- status 6
script line 1: BadWindow

== CreatePracticeRunConfiguration with blockingAlarms that are a number
call 0 0 0 CreatePracticeRunConfiguration {"resourceIdentifier":"arn:arc:resource/0000000000000001","blockedDates":[],"blockedWindows":[],"blockingAlarms":1,"outcomeAlarms":1}
---- status 6
script line 1: WrongType

== CreatePracticeRunConfiguration with blockingAlarms that are an object
call 0 0 0 CreatePracticeRunConfiguration {"resourceIdentifier":"arn:arc:resource/0000000000000001","blockedDates":[],"blockedWindows":[],"blockingAlarms":{},"outcomeAlarms":1}
---- status 6
script line 1: WrongType

== CreatePracticeRunConfiguration with blockingAlarms of which there are 5, whatever they are
call 0 0 0 CreatePracticeRunConfiguration {"resourceIdentifier":"arn:arc:resource/0000000000000001","blockedDates":[],"blockedWindows":[],"blockingAlarms":[1,1,1,1,1],"outcomeAlarms":1}
---- status 6
script line 1: TooManyEntries

== CreatePracticeRunConfiguration with blockingAlarms of which one is a text
call 0 0 0 CreatePracticeRunConfiguration {"resourceIdentifier":"arn:arc:resource/0000000000000001","blockedDates":[],"blockedWindows":[],"blockingAlarms":["a"],"outcomeAlarms":1}
---- status 6
script line 1: WrongType

== CreatePracticeRunConfiguration with blockingAlarms of which one is null
call 0 0 0 CreatePracticeRunConfiguration {"resourceIdentifier":"arn:arc:resource/0000000000000001","blockedDates":[],"blockedWindows":[],"blockingAlarms":[null],"outcomeAlarms":1}
---- status 6
script line 1: WrongType

== CreatePracticeRunConfiguration with blockingAlarms of which one has no name
call 0 0 0 CreatePracticeRunConfiguration {"resourceIdentifier":"arn:arc:resource/0000000000000001","blockedDates":[],"blockedWindows":[],"blockingAlarms":[{}],"outcomeAlarms":1}
---- status 6
script line 1: MissingMember

== CreatePracticeRunConfiguration with blockingAlarms of which one has null as its name
call 0 0 0 CreatePracticeRunConfiguration {"resourceIdentifier":"arn:arc:resource/0000000000000001","blockedDates":[],"blockedWindows":[],"blockingAlarms":[{"alarmIdentifier":null}],"outcomeAlarms":1}
---- status 6
script line 1: MissingMember

== CreatePracticeRunConfiguration with blockingAlarms of which one has a number as its name
call 0 0 0 CreatePracticeRunConfiguration {"resourceIdentifier":"arn:arc:resource/0000000000000001","blockedDates":[],"blockedWindows":[],"blockingAlarms":[{"alarmIdentifier":1}],"outcomeAlarms":1}
---- status 6
script line 1: WrongType

== CreatePracticeRunConfiguration with blockingAlarms of which one has an empty name
call 0 0 0 CreatePracticeRunConfiguration {"resourceIdentifier":"arn:arc:resource/0000000000000001","blockedDates":[],"blockedWindows":[],"blockingAlarms":[{"alarmIdentifier":"a"},{"alarmIdentifier":""}],"outcomeAlarms":1}
---- status 6
script line 1: BadName

== CreatePracticeRunConfiguration with blockingAlarms of which one has a name of 65 bytes
call 0 0 0 CreatePracticeRunConfiguration {"resourceIdentifier":"arn:arc:resource/0000000000000001","blockedDates":[],"blockedWindows":[],"blockingAlarms":[{"alarmIdentifier":"xxxxxxxxxxxxxxxxxxxxxxxxxxxxxxxxxxxxxxxxxxxxxxxxxxxxxxxxxxxxxxxxx"}],"outcomeAlarms":1}
---- status 6
script line 1: BadName

== CreatePracticeRunConfiguration without outcomeAlarms
call 0 0 0 CreatePracticeRunConfiguration {"resourceIdentifier":"arn:arc:resource/0000000000000001","blockedDates":[],"blockedWindows":[],"blockingAlarms":[{"alarmIdentifier":"o"}]}
---- status 6
script line 1: MissingMember

== CreatePracticeRunConfiguration with outcomeAlarms that are a number
call 0 0 0 CreatePracticeRunConfiguration {"resourceIdentifier":"arn:arc:resource/0000000000000001","blockedDates":[],"blockedWindows":[],"blockingAlarms":[{"alarmIdentifier":"o"}],"outcomeAlarms":1}
---- status 6
script line 1: WrongType

== CreatePracticeRunConfiguration with outcomeAlarms that are an object
call 0 0 0 CreatePracticeRunConfiguration {"resourceIdentifier":"arn:arc:resource/0000000000000001","blockedDates":[],"blockedWindows":[],"blockingAlarms":[{"alarmIdentifier":"o"}],"outcomeAlarms":{}}
---- status 6
script line 1: WrongType

== CreatePracticeRunConfiguration with outcomeAlarms of which there are none
call 0 0 0 CreatePracticeRunConfiguration {"resourceIdentifier":"arn:arc:resource/0000000000000001","blockedDates":[],"blockedWindows":[],"blockingAlarms":[{"alarmIdentifier":"o"}],"outcomeAlarms":[]}
---- status 6
script line 1: EmptyEntries

== CreatePracticeRunConfiguration with outcomeAlarms of which there are 5, whatever they are
call 0 0 0 CreatePracticeRunConfiguration {"resourceIdentifier":"arn:arc:resource/0000000000000001","blockedDates":[],"blockedWindows":[],"blockingAlarms":[{"alarmIdentifier":"o"}],"outcomeAlarms":[1,1,1,1,1]}
---- status 6
script line 1: TooManyEntries

== CreatePracticeRunConfiguration with outcomeAlarms of which one is a text
call 0 0 0 CreatePracticeRunConfiguration {"resourceIdentifier":"arn:arc:resource/0000000000000001","blockedDates":[],"blockedWindows":[],"blockingAlarms":[{"alarmIdentifier":"o"}],"outcomeAlarms":["a"]}
---- status 6
script line 1: WrongType

== CreatePracticeRunConfiguration with outcomeAlarms of which one is null
call 0 0 0 CreatePracticeRunConfiguration {"resourceIdentifier":"arn:arc:resource/0000000000000001","blockedDates":[],"blockedWindows":[],"blockingAlarms":[{"alarmIdentifier":"o"}],"outcomeAlarms":[null]}
---- status 6
script line 1: WrongType

== CreatePracticeRunConfiguration with outcomeAlarms of which one has no name
call 0 0 0 CreatePracticeRunConfiguration {"resourceIdentifier":"arn:arc:resource/0000000000000001","blockedDates":[],"blockedWindows":[],"blockingAlarms":[{"alarmIdentifier":"o"}],"outcomeAlarms":[{}]}
---- status 6
script line 1: MissingMember

== CreatePracticeRunConfiguration with outcomeAlarms of which one has null as its name
call 0 0 0 CreatePracticeRunConfiguration {"resourceIdentifier":"arn:arc:resource/0000000000000001","blockedDates":[],"blockedWindows":[],"blockingAlarms":[{"alarmIdentifier":"o"}],"outcomeAlarms":[{"alarmIdentifier":null}]}
---- status 6
script line 1: MissingMember

== CreatePracticeRunConfiguration with outcomeAlarms of which one has a number as its name
call 0 0 0 CreatePracticeRunConfiguration {"resourceIdentifier":"arn:arc:resource/0000000000000001","blockedDates":[],"blockedWindows":[],"blockingAlarms":[{"alarmIdentifier":"o"}],"outcomeAlarms":[{"alarmIdentifier":1}]}
---- status 6
script line 1: WrongType

== CreatePracticeRunConfiguration with outcomeAlarms of which one has an empty name
call 0 0 0 CreatePracticeRunConfiguration {"resourceIdentifier":"arn:arc:resource/0000000000000001","blockedDates":[],"blockedWindows":[],"blockingAlarms":[{"alarmIdentifier":"o"}],"outcomeAlarms":[{"alarmIdentifier":"a"},{"alarmIdentifier":""}]}
---- status 6
script line 1: BadName

== CreatePracticeRunConfiguration with outcomeAlarms of which one has a name of 65 bytes
call 0 0 0 CreatePracticeRunConfiguration {"resourceIdentifier":"arn:arc:resource/0000000000000001","blockedDates":[],"blockedWindows":[],"blockingAlarms":[{"alarmIdentifier":"o"}],"outcomeAlarms":[{"alarmIdentifier":"xxxxxxxxxxxxxxxxxxxxxxxxxxxxxxxxxxxxxxxxxxxxxxxxxxxxxxxxxxxxxxxxx"}]}
---- status 6
script line 1: BadName

== UpdatePracticeRunConfiguration without resourceIdentifier
call 0 0 0 UpdatePracticeRunConfiguration {"blockedDates":1,"blockedWindows":1,"blockingAlarms":1,"outcomeAlarms":1}
---- status 6
script line 1: MissingMember

== UpdatePracticeRunConfiguration with resourceIdentifier that is a number
call 0 0 0 UpdatePracticeRunConfiguration {"resourceIdentifier":1,"blockedDates":1,"blockedWindows":1,"blockingAlarms":1,"outcomeAlarms":1}
---- status 6
script line 1: WrongType

== UpdatePracticeRunConfiguration with resourceIdentifier of another kind
call 0 0 0 UpdatePracticeRunConfiguration {"resourceIdentifier":"arn:arc:panel/0000000000000001","blockedDates":1,"blockedWindows":1,"blockingAlarms":1,"outcomeAlarms":1}
---- status 6
script line 1: BadId

== UpdatePracticeRunConfiguration with blockedDates that are a number
call 0 0 0 UpdatePracticeRunConfiguration {"resourceIdentifier":"arn:arc:resource/0000000000000001","blockedDates":1,"blockedWindows":1,"blockingAlarms":1,"outcomeAlarms":1}
---- status 6
script line 1: WrongType

== UpdatePracticeRunConfiguration with blockedDates that are an object
call 0 0 0 UpdatePracticeRunConfiguration {"resourceIdentifier":"arn:arc:resource/0000000000000001","blockedDates":{},"blockedWindows":1,"blockingAlarms":1,"outcomeAlarms":1}
---- status 6
script line 1: WrongType

== UpdatePracticeRunConfiguration with blockedDates of which there are 16, whatever they are
call 0 0 0 UpdatePracticeRunConfiguration {"resourceIdentifier":"arn:arc:resource/0000000000000001","blockedDates":[1,1,1,1,1,1,1,1,1,1,1,1,1,1,1,1],"blockedWindows":1,"blockingAlarms":1,"outcomeAlarms":1}
---- status 6
script line 1: TooManyEntries

== UpdatePracticeRunConfiguration with blockedDates of which one is a number
call 0 0 0 UpdatePracticeRunConfiguration {"resourceIdentifier":"arn:arc:resource/0000000000000001","blockedDates":[1,1,1,1,1,1,1,1,1,1,1,1,1,1,1],"blockedWindows":1,"blockingAlarms":1,"outcomeAlarms":1}
---- status 6
script line 1: WrongType

== UpdatePracticeRunConfiguration with blockedDates of which one is null
call 0 0 0 UpdatePracticeRunConfiguration {"resourceIdentifier":"arn:arc:resource/0000000000000001","blockedDates":[null],"blockedWindows":1,"blockingAlarms":1,"outcomeAlarms":1}
---- status 6
script line 1: WrongType

== UpdatePracticeRunConfiguration with blockedDates of which one isn't in the calendar
call 0 0 0 UpdatePracticeRunConfiguration {"resourceIdentifier":"arn:arc:resource/0000000000000001","blockedDates":["1970-01-01","2026-02-30"],"blockedWindows":1,"blockingAlarms":1,"outcomeAlarms":1}
---- status 6
script line 1: BadDate

== UpdatePracticeRunConfiguration with blockedWindows that are a number
call 0 0 0 UpdatePracticeRunConfiguration {"resourceIdentifier":"arn:arc:resource/0000000000000001","blockedDates":[],"blockedWindows":1,"blockingAlarms":1,"outcomeAlarms":1}
---- status 6
script line 1: WrongType

== UpdatePracticeRunConfiguration with blockedWindows that are an object
call 0 0 0 UpdatePracticeRunConfiguration {"resourceIdentifier":"arn:arc:resource/0000000000000001","blockedDates":[],"blockedWindows":{},"blockingAlarms":1,"outcomeAlarms":1}
---- status 6
script line 1: WrongType

== UpdatePracticeRunConfiguration with blockedWindows of which there are 16, whatever they are
call 0 0 0 UpdatePracticeRunConfiguration {"resourceIdentifier":"arn:arc:resource/0000000000000001","blockedDates":[],"blockedWindows":[1,1,1,1,1,1,1,1,1,1,1,1,1,1,1,1],"blockingAlarms":1,"outcomeAlarms":1}
---- status 6
script line 1: TooManyEntries

== UpdatePracticeRunConfiguration with blockedWindows of which one is a number
call 0 0 0 UpdatePracticeRunConfiguration {"resourceIdentifier":"arn:arc:resource/0000000000000001","blockedDates":[],"blockedWindows":[1,1,1,1,1,1,1,1,1,1,1,1,1,1,1],"blockingAlarms":1,"outcomeAlarms":1}
---- status 6
script line 1: WrongType

== UpdatePracticeRunConfiguration with blockedWindows of which one is null
call 0 0 0 UpdatePracticeRunConfiguration {"resourceIdentifier":"arn:arc:resource/0000000000000001","blockedDates":[],"blockedWindows":[null],"blockingAlarms":1,"outcomeAlarms":1}
---- status 6
script line 1: WrongType

== UpdatePracticeRunConfiguration with blockedWindows of which one is empty
call 0 0 0 UpdatePracticeRunConfiguration {"resourceIdentifier":"arn:arc:resource/0000000000000001","blockedDates":[],"blockedWindows":["Mon:00:00-Mon:00:01","Mon:00:00-Mon:00:00"],"blockingAlarms":1,"outcomeAlarms":1}
---- status 6
script line 1: BadWindow

== UpdatePracticeRunConfiguration with blockingAlarms that are a number
call 0 0 0 UpdatePracticeRunConfiguration {"resourceIdentifier":"arn:arc:resource/0000000000000001","blockedDates":[],"blockedWindows":[],"blockingAlarms":1,"outcomeAlarms":1}
---- status 6
script line 1: WrongType

== UpdatePracticeRunConfiguration with blockingAlarms that are an object
call 0 0 0 UpdatePracticeRunConfiguration {"resourceIdentifier":"arn:arc:resource/0000000000000001","blockedDates":[],"blockedWindows":[],"blockingAlarms":{},"outcomeAlarms":1}
---- status 6
script line 1: WrongType

== UpdatePracticeRunConfiguration with blockingAlarms of which there are 5, whatever they are
call 0 0 0 UpdatePracticeRunConfiguration {"resourceIdentifier":"arn:arc:resource/0000000000000001","blockedDates":[],"blockedWindows":[],"blockingAlarms":[1,1,1,1,1],"outcomeAlarms":1}
---- status 6
script line 1: TooManyEntries

== UpdatePracticeRunConfiguration with blockingAlarms of which one is a text
call 0 0 0 UpdatePracticeRunConfiguration {"resourceIdentifier":"arn:arc:resource/0000000000000001","blockedDates":[],"blockedWindows":[],"blockingAlarms":["a"],"outcomeAlarms":1}
---- status 6
script line 1: WrongType

== UpdatePracticeRunConfiguration with blockingAlarms of which one is null
call 0 0 0 UpdatePracticeRunConfiguration {"resourceIdentifier":"arn:arc:resource/0000000000000001","blockedDates":[],"blockedWindows":[],"blockingAlarms":[null],"outcomeAlarms":1}
---- status 6
script line 1: WrongType

== UpdatePracticeRunConfiguration with blockingAlarms of which one has no name
call 0 0 0 UpdatePracticeRunConfiguration {"resourceIdentifier":"arn:arc:resource/0000000000000001","blockedDates":[],"blockedWindows":[],"blockingAlarms":[{}],"outcomeAlarms":1}
---- status 6
script line 1: MissingMember

== UpdatePracticeRunConfiguration with blockingAlarms of which one has null as its name
call 0 0 0 UpdatePracticeRunConfiguration {"resourceIdentifier":"arn:arc:resource/0000000000000001","blockedDates":[],"blockedWindows":[],"blockingAlarms":[{"alarmIdentifier":null}],"outcomeAlarms":1}
---- status 6
script line 1: MissingMember

== UpdatePracticeRunConfiguration with blockingAlarms of which one has a number as its name
call 0 0 0 UpdatePracticeRunConfiguration {"resourceIdentifier":"arn:arc:resource/0000000000000001","blockedDates":[],"blockedWindows":[],"blockingAlarms":[{"alarmIdentifier":1}],"outcomeAlarms":1}
---- status 6
script line 1: WrongType

== UpdatePracticeRunConfiguration with blockingAlarms of which one has an empty name
call 0 0 0 UpdatePracticeRunConfiguration {"resourceIdentifier":"arn:arc:resource/0000000000000001","blockedDates":[],"blockedWindows":[],"blockingAlarms":[{"alarmIdentifier":"a"},{"alarmIdentifier":""}],"outcomeAlarms":1}
---- status 6
script line 1: BadName

== UpdatePracticeRunConfiguration with blockingAlarms of which one has a name of 65 bytes
call 0 0 0 UpdatePracticeRunConfiguration {"resourceIdentifier":"arn:arc:resource/0000000000000001","blockedDates":[],"blockedWindows":[],"blockingAlarms":[{"alarmIdentifier":"xxxxxxxxxxxxxxxxxxxxxxxxxxxxxxxxxxxxxxxxxxxxxxxxxxxxxxxxxxxxxxxxx"}],"outcomeAlarms":1}
---- status 6
script line 1: BadName

== UpdatePracticeRunConfiguration with outcomeAlarms that are a number
call 0 0 0 UpdatePracticeRunConfiguration {"resourceIdentifier":"arn:arc:resource/0000000000000001","blockedDates":[],"blockedWindows":[],"blockingAlarms":[{"alarmIdentifier":"o"}],"outcomeAlarms":1}
---- status 6
script line 1: WrongType

== UpdatePracticeRunConfiguration with outcomeAlarms that are an object
call 0 0 0 UpdatePracticeRunConfiguration {"resourceIdentifier":"arn:arc:resource/0000000000000001","blockedDates":[],"blockedWindows":[],"blockingAlarms":[{"alarmIdentifier":"o"}],"outcomeAlarms":{}}
---- status 6
script line 1: WrongType

== UpdatePracticeRunConfiguration with outcomeAlarms of which there are none
call 0 0 0 UpdatePracticeRunConfiguration {"resourceIdentifier":"arn:arc:resource/0000000000000001","blockedDates":[],"blockedWindows":[],"blockingAlarms":[{"alarmIdentifier":"o"}],"outcomeAlarms":[]}
---- status 6
script line 1: EmptyEntries

== UpdatePracticeRunConfiguration with outcomeAlarms of which there are 5, whatever they are
call 0 0 0 UpdatePracticeRunConfiguration {"resourceIdentifier":"arn:arc:resource/0000000000000001","blockedDates":[],"blockedWindows":[],"blockingAlarms":[{"alarmIdentifier":"o"}],"outcomeAlarms":[1,1,1,1,1]}
---- status 6
script line 1: TooManyEntries

== UpdatePracticeRunConfiguration with outcomeAlarms of which one is a text
call 0 0 0 UpdatePracticeRunConfiguration {"resourceIdentifier":"arn:arc:resource/0000000000000001","blockedDates":[],"blockedWindows":[],"blockingAlarms":[{"alarmIdentifier":"o"}],"outcomeAlarms":["a"]}
---- status 6
script line 1: WrongType

== UpdatePracticeRunConfiguration with outcomeAlarms of which one is null
call 0 0 0 UpdatePracticeRunConfiguration {"resourceIdentifier":"arn:arc:resource/0000000000000001","blockedDates":[],"blockedWindows":[],"blockingAlarms":[{"alarmIdentifier":"o"}],"outcomeAlarms":[null]}
---- status 6
script line 1: WrongType

== UpdatePracticeRunConfiguration with outcomeAlarms of which one has no name
call 0 0 0 UpdatePracticeRunConfiguration {"resourceIdentifier":"arn:arc:resource/0000000000000001","blockedDates":[],"blockedWindows":[],"blockingAlarms":[{"alarmIdentifier":"o"}],"outcomeAlarms":[{}]}
---- status 6
script line 1: MissingMember

== UpdatePracticeRunConfiguration with outcomeAlarms of which one has null as its name
call 0 0 0 UpdatePracticeRunConfiguration {"resourceIdentifier":"arn:arc:resource/0000000000000001","blockedDates":[],"blockedWindows":[],"blockingAlarms":[{"alarmIdentifier":"o"}],"outcomeAlarms":[{"alarmIdentifier":null}]}
---- status 6
script line 1: MissingMember

== UpdatePracticeRunConfiguration with outcomeAlarms of which one has a number as its name
call 0 0 0 UpdatePracticeRunConfiguration {"resourceIdentifier":"arn:arc:resource/0000000000000001","blockedDates":[],"blockedWindows":[],"blockingAlarms":[{"alarmIdentifier":"o"}],"outcomeAlarms":[{"alarmIdentifier":1}]}
---- status 6
script line 1: WrongType

== UpdatePracticeRunConfiguration with outcomeAlarms of which one has an empty name
call 0 0 0 UpdatePracticeRunConfiguration {"resourceIdentifier":"arn:arc:resource/0000000000000001","blockedDates":[],"blockedWindows":[],"blockingAlarms":[{"alarmIdentifier":"o"}],"outcomeAlarms":[{"alarmIdentifier":"a"},{"alarmIdentifier":""}]}
---- status 6
script line 1: BadName

== UpdatePracticeRunConfiguration with outcomeAlarms of which one has a name of 65 bytes
call 0 0 0 UpdatePracticeRunConfiguration {"resourceIdentifier":"arn:arc:resource/0000000000000001","blockedDates":[],"blockedWindows":[],"blockingAlarms":[{"alarmIdentifier":"o"}],"outcomeAlarms":[{"alarmIdentifier":"xxxxxxxxxxxxxxxxxxxxxxxxxxxxxxxxxxxxxxxxxxxxxxxxxxxxxxxxxxxxxxxxx"}]}
---- status 6
script line 1: BadName
