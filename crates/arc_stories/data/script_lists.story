# Lists in scripts: the entries and overrides of batches, the controls of rules, and their configurations.
# A list is counted first, then its items are tested in order, and doubles are found last.

== a batch of two entries
new 0 0 0 a
new 0 0 0 b
batch 0 0 0 2=On,1=On -
batch 0 0 0 1=Off,2=On -
get 0 0 0 1
get 0 0 0 2
----
slot 0 token 1 200 {"RoutingControl":{"ControlPanelArn":"arn:arc:panel/0000000000000001","Name":"a","RoutingControlArn":"arn:arc:control/0000000000000001"}}
slot 1 token 2 200 {"RoutingControl":{"ControlPanelArn":"arn:arc:panel/0000000000000001","Name":"b","RoutingControlArn":"arn:arc:control/0000000000000002"}}
slot 2 token 3 200 {}
slot 3 token 4 200 {}
slot 4 token 5 200 {"RoutingControlArn":"arn:arc:control/0000000000000001","RoutingControlName":"a","RoutingControlState":"Off"}
slot 5 token 6 200 {"RoutingControlArn":"arn:arc:control/0000000000000002","RoutingControlName":"b","RoutingControlState":"On"}

== a batch names the rules that it overrides
new 0 0 0 a
assert 0 0 0 r !OR 0 1
assert 0 0 0 s !AND 0 1
batch 0 0 0 1=On -
batch 0 0 0 1=On 2
batch 0 0 0 1=On 1,2
----
slot 0 token 1 200 {"RoutingControl":{"ControlPanelArn":"arn:arc:panel/0000000000000001","Name":"a","RoutingControlArn":"arn:arc:control/0000000000000001"}}
slot 1 token 2 200 {"SafetyRuleArn":"arn:arc:rule/0000000000000001"}
slot 2 token 3 200 {"SafetyRuleArn":"arn:arc:rule/0000000000000002"}
slot 3 token 4 409 {"Reason":"Forbidden","Rules":[{"Cause":"AssertFalse","SafetyRuleArn":"arn:arc:rule/0000000000000001"},{"Cause":"AssertFalse","SafetyRuleArn":"arn:arc:rule/0000000000000002"}],"__type":"ConflictException"}
slot 4 token 5 409 {"Reason":"Forbidden","Rules":[{"Cause":"AssertFalse","SafetyRuleArn":"arn:arc:rule/0000000000000001"}],"__type":"ConflictException"}
slot 5 token 6 200 {}

== overrides may repeat
new 0 0 0 a
assert 0 0 0 r !OR 0 1
batch 0 0 0 1=On 1,1
----
slot 0 token 1 200 {"RoutingControl":{"ControlPanelArn":"arn:arc:panel/0000000000000001","Name":"a","RoutingControlArn":"arn:arc:control/0000000000000001"}}
slot 1 token 2 200 {"SafetyRuleArn":"arn:arc:rule/0000000000000001"}
slot 2 token 3 200 {}

== the largest batch
batch 0 0 0 1=On,2=On,3=On,4=On,5=On,6=On,7=On,8=On,9=On,10=On,11=On,12=On,13=On,14=On,15=On,16=On 1,2,3,4,5,6,7,8,9,10,11,12,13,14,15,16
----
slot 0 token 1 404 {"Reason":"NotFound","Resource":"arn:arc:control/0000000000000001","__type":"ResourceNotFoundException"}

== overrides are read as numbers of rules
new 0 0 0 a
batch 0 0 0 1=On 18446744073709551615
----
slot 0 token 1 200 {"RoutingControl":{"ControlPanelArn":"arn:arc:panel/0000000000000001","Name":"a","RoutingControlArn":"arn:arc:control/0000000000000001"}}
slot 1 token 2 404 {"Reason":"NotFound","Resource":"arn:arc:rule/ffffffffffffffff","__type":"ResourceNotFoundException"}

== entries are read as numbers of controls
batch 0 0 0 18446744073709551615=On -
----
slot 0 token 1 404 {"Reason":"NotFound","Resource":"arn:arc:control/ffffffffffffffff","__type":"ResourceNotFoundException"}

== AND asks for each control
new 0 0 0 a
new 0 0 0 b
batch 0 0 0 1=On,2=On -
assert 0 0 0 r AND 0 1,2
set 0 0 0 1 Off
----
slot 0 token 1 200 {"RoutingControl":{"ControlPanelArn":"arn:arc:panel/0000000000000001","Name":"a","RoutingControlArn":"arn:arc:control/0000000000000001"}}
slot 1 token 2 200 {"RoutingControl":{"ControlPanelArn":"arn:arc:panel/0000000000000001","Name":"b","RoutingControlArn":"arn:arc:control/0000000000000002"}}
slot 2 token 3 200 {}
slot 3 token 4 200 {"SafetyRuleArn":"arn:arc:rule/0000000000000001"}
slot 4 token 5 409 {"Reason":"Forbidden","Rules":[{"Cause":"AssertFalse","SafetyRuleArn":"arn:arc:rule/0000000000000001"}],"__type":"ConflictException"}

== OR asks for one control
new 0 0 0 a
new 0 0 0 b
batch 0 0 0 1=On,2=On -
assert 0 0 0 r OR 0 2,1
set 0 0 0 1 Off
set 0 0 0 2 Off
----
slot 0 token 1 200 {"RoutingControl":{"ControlPanelArn":"arn:arc:panel/0000000000000001","Name":"a","RoutingControlArn":"arn:arc:control/0000000000000001"}}
slot 1 token 2 200 {"RoutingControl":{"ControlPanelArn":"arn:arc:panel/0000000000000001","Name":"b","RoutingControlArn":"arn:arc:control/0000000000000002"}}
slot 2 token 3 200 {}
slot 3 token 4 200 {"SafetyRuleArn":"arn:arc:rule/0000000000000001"}
slot 4 token 5 200 {}
slot 5 token 6 409 {"Reason":"Forbidden","Rules":[{"Cause":"AssertFalse","SafetyRuleArn":"arn:arc:rule/0000000000000001"}],"__type":"ConflictException"}

== ATLEAST asks for as many controls as its number
new 0 0 0 a
new 0 0 0 b
batch 0 0 0 1=On,2=On -
assert 0 0 0 r ATLEAST:2 0 1,2
set 0 0 0 1 Off
----
slot 0 token 1 200 {"RoutingControl":{"ControlPanelArn":"arn:arc:panel/0000000000000001","Name":"a","RoutingControlArn":"arn:arc:control/0000000000000001"}}
slot 1 token 2 200 {"RoutingControl":{"ControlPanelArn":"arn:arc:panel/0000000000000001","Name":"b","RoutingControlArn":"arn:arc:control/0000000000000002"}}
slot 2 token 3 200 {}
slot 3 token 4 200 {"SafetyRuleArn":"arn:arc:rule/0000000000000001"}
slot 4 token 5 409 {"Reason":"Forbidden","Rules":[{"Cause":"AssertFalse","SafetyRuleArn":"arn:arc:rule/0000000000000001"}],"__type":"ConflictException"}

== ATLEAST asks for no more controls than its number
new 0 0 0 a
new 0 0 0 b
batch 0 0 0 1=On,2=On -
assert 0 0 0 r ATLEAST:1 0 1,2
set 0 0 0 1 Off
set 0 0 0 2 Off
----
slot 0 token 1 200 {"RoutingControl":{"ControlPanelArn":"arn:arc:panel/0000000000000001","Name":"a","RoutingControlArn":"arn:arc:control/0000000000000001"}}
slot 1 token 2 200 {"RoutingControl":{"ControlPanelArn":"arn:arc:panel/0000000000000001","Name":"b","RoutingControlArn":"arn:arc:control/0000000000000002"}}
slot 2 token 3 200 {}
slot 3 token 4 200 {"SafetyRuleArn":"arn:arc:rule/0000000000000001"}
slot 4 token 5 200 {}
slot 5 token 6 409 {"Reason":"Forbidden","Rules":[{"Cause":"AssertFalse","SafetyRuleArn":"arn:arc:rule/0000000000000001"}],"__type":"ConflictException"}

== an exclamation mark inverts AND
new 0 0 0 a
new 0 0 0 b
assert 0 0 0 r !AND 0 1,2
set 0 0 0 1 On
set 0 0 0 2 On
----
slot 0 token 1 200 {"RoutingControl":{"ControlPanelArn":"arn:arc:panel/0000000000000001","Name":"a","RoutingControlArn":"arn:arc:control/0000000000000001"}}
slot 1 token 2 200 {"RoutingControl":{"ControlPanelArn":"arn:arc:panel/0000000000000001","Name":"b","RoutingControlArn":"arn:arc:control/0000000000000002"}}
slot 2 token 3 200 {"SafetyRuleArn":"arn:arc:rule/0000000000000001"}
slot 3 token 4 200 {}
slot 4 token 5 409 {"Reason":"Forbidden","Rules":[{"Cause":"AssertFalse","SafetyRuleArn":"arn:arc:rule/0000000000000001"}],"__type":"ConflictException"}

== an exclamation mark inverts OR
new 0 0 0 a
new 0 0 0 b
assert 0 0 0 r !OR 0 1,2
set 0 0 0 1 On
----
slot 0 token 1 200 {"RoutingControl":{"ControlPanelArn":"arn:arc:panel/0000000000000001","Name":"a","RoutingControlArn":"arn:arc:control/0000000000000001"}}
slot 1 token 2 200 {"RoutingControl":{"ControlPanelArn":"arn:arc:panel/0000000000000001","Name":"b","RoutingControlArn":"arn:arc:control/0000000000000002"}}
slot 2 token 3 200 {"SafetyRuleArn":"arn:arc:rule/0000000000000001"}
slot 3 token 4 409 {"Reason":"Forbidden","Rules":[{"Cause":"AssertFalse","SafetyRuleArn":"arn:arc:rule/0000000000000001"}],"__type":"ConflictException"}

== an exclamation mark inverts ATLEAST
new 0 0 0 a
new 0 0 0 b
assert 0 0 0 r !ATLEAST:2 0 1,2
set 0 0 0 1 On
set 0 0 0 2 On
----
slot 0 token 1 200 {"RoutingControl":{"ControlPanelArn":"arn:arc:panel/0000000000000001","Name":"a","RoutingControlArn":"arn:arc:control/0000000000000001"}}
slot 1 token 2 200 {"RoutingControl":{"ControlPanelArn":"arn:arc:panel/0000000000000001","Name":"b","RoutingControlArn":"arn:arc:control/0000000000000002"}}
slot 2 token 3 200 {"SafetyRuleArn":"arn:arc:rule/0000000000000001"}
slot 3 token 4 200 {}
slot 4 token 5 409 {"Reason":"Forbidden","Rules":[{"Cause":"AssertFalse","SafetyRuleArn":"arn:arc:rule/0000000000000001"}],"__type":"ConflictException"}

== assert and gate make rules of panel 1 with their names and waits
new 0 0 0 a
new 0 0 0 b
assert 0 0 0 r OR 604800000 2,1
gate 0 0 0 g AND 60000 1 2
call 0 0 0 ListSafetyRules {"ControlPanelArn":"arn:arc:panel/0000000000000001"}
----
slot 0 token 1 200 {"RoutingControl":{"ControlPanelArn":"arn:arc:panel/0000000000000001","Name":"a","RoutingControlArn":"arn:arc:control/0000000000000001"}}
slot 1 token 2 200 {"RoutingControl":{"ControlPanelArn":"arn:arc:panel/0000000000000001","Name":"b","RoutingControlArn":"arn:arc:control/0000000000000002"}}
slot 2 token 3 200 {"SafetyRuleArn":"arn:arc:rule/0000000000000001"}
slot 3 token 4 200 {"SafetyRuleArn":"arn:arc:rule/0000000000000002"}
slot 4 token 5 200 {"SafetyRules":[{"Name":"r","SafetyRuleArn":"arn:arc:rule/0000000000000001","Type":"ASSERTION","WaitPeriodMs":604800000},{"Name":"g","SafetyRuleArn":"arn:arc:rule/0000000000000002","Type":"GATING","WaitPeriodMs":60000}]}

== the gating controls of a gate stand before its targets
new 0 0 0 a
new 0 0 0 b
gate 0 0 0 g AND 0 1 2
set 0 0 0 2 On
set 0 0 0 1 On
set 0 0 0 2 On
----
slot 0 token 1 200 {"RoutingControl":{"ControlPanelArn":"arn:arc:panel/0000000000000001","Name":"a","RoutingControlArn":"arn:arc:control/0000000000000001"}}
slot 1 token 2 200 {"RoutingControl":{"ControlPanelArn":"arn:arc:panel/0000000000000001","Name":"b","RoutingControlArn":"arn:arc:control/0000000000000002"}}
slot 2 token 3 200 {"SafetyRuleArn":"arn:arc:rule/0000000000000001"}
slot 3 token 4 409 {"Reason":"Forbidden","Rules":[{"Cause":"GateClosed","SafetyRuleArn":"arn:arc:rule/0000000000000001"}],"__type":"ConflictException"}
slot 4 token 5 200 {}
slot 5 token 6 200 {}

== a control may gate itself
new 0 0 0 a
gate 0 0 0 g OR 0 1 1
set 0 0 0 1 On
----
slot 0 token 1 200 {"RoutingControl":{"ControlPanelArn":"arn:arc:panel/0000000000000001","Name":"a","RoutingControlArn":"arn:arc:control/0000000000000001"}}
slot 1 token 2 200 {"SafetyRuleArn":"arn:arc:rule/0000000000000001"}
slot 2 token 3 409 {"Reason":"Forbidden","Rules":[{"Cause":"GateClosed","SafetyRuleArn":"arn:arc:rule/0000000000000001"}],"__type":"ConflictException"}

== the number of a gate is measured by its gating controls
new 0 0 0 a
new 0 0 0 b
gate 0 0 0 g ATLEAST:2 0 1,2 1
----
slot 0 token 1 200 {"RoutingControl":{"ControlPanelArn":"arn:arc:panel/0000000000000001","Name":"a","RoutingControlArn":"arn:arc:control/0000000000000001"}}
slot 1 token 2 200 {"RoutingControl":{"ControlPanelArn":"arn:arc:panel/0000000000000001","Name":"b","RoutingControlArn":"arn:arc:control/0000000000000002"}}
slot 2 token 3 200 {"SafetyRuleArn":"arn:arc:rule/0000000000000001"}

== a rule over 32 controls
assert 0 0 0 r ATLEAST:32 0 1,2,3,4,5,6,7,8,9,10,11,12,13,14,15,16,17,18,19,20,21,22,23,24,25,26,27,28,29,30,31,32
----
slot 0 token 1 404 {"Reason":"NotFound","Resource":"arn:arc:control/0000000000000001","__type":"ResourceNotFoundException"}

== a gate of 32 controls over 32 targets
gate 0 0 0 g ATLEAST:32 0 1,2,3,4,5,6,7,8,9,10,11,12,13,14,15,16,17,18,19,20,21,22,23,24,25,26,27,28,29,30,31,32 33,34,35,36,37,38,39,40,41,42,43,44,45,46,47,48,49,50,51,52,53,54,55,56,57,58,59,60,61,62,63,64
----
slot 0 token 1 404 {"Reason":"NotFound","Resource":"arn:arc:control/0000000000000001","__type":"ResourceNotFoundException"}

== a batch without overrides
batch 0 0 0 1=On
---- status 6
script line 1: Shape

== a batch with empty overrides
batch 0 0 0 1=On 
---- status 6
script line 1: Shape

== a batch with two blanks
batch 0 0 0 1=On  -
---- status 6
script line 1: Shape

== a batch with one word more
batch 0 0 0 1=On - -
---- status 6
script line 1: Shape

== a blank between entries
batch 0 0 0 1=On, 2=On -
---- status 6
script line 1: Shape

== an assertion without controls
assert 0 0 0 r AND 0
---- status 6
script line 1: Shape

== an assertion with one word more
assert 0 0 0 r AND 0 1 2
---- status 6
script line 1: Shape

== a gate without targets
gate 0 0 0 r AND 0 1
---- status 6
script line 1: Shape

== a gate with one word more
gate 0 0 0 r AND 0 1 2 3
---- status 6
script line 1: Shape

== the endpoint of a batch is tested first
batch 1 x 0 1=On -
---- status 6
script line 1: Word

== the token of a batch is tested before its entries
batch 0 0 x y -
---- status 6
script line 1: Number

== a hyphen is no entry
batch 0 0 0 - -
---- status 6
script line 1: Number

== an entry without a state
batch 0 0 0 1 -
---- status 6
script line 1: State

== an entry that is no number
batch 0 0 0 x -
---- status 6
script line 1: Number

== an entry with a state in small letters
batch 0 0 0 1=on -
---- status 6
script line 1: State

== the state begins behind the first equals sign
batch 0 0 0 1=On=On -
---- status 6
script line 1: State

== an entry without a control
batch 0 0 0 =On -
---- status 6
script line 1: Number

== an entry with an empty state
batch 0 0 0 1= -
---- status 6
script line 1: State

== the control of an entry is tested before its state
batch 0 0 0 x=on -
---- status 6
script line 1: Number

== a comma behind the last entry makes an empty one
batch 0 0 0 1=On, -
---- status 6
script line 1: Number

== an empty entry between two
batch 0 0 0 1=On,,2=On -
---- status 6
script line 1: Number

== an entry with a leading zero
batch 0 0 0 01=On -
---- status 6
script line 1: Number

== entries are tested in order
batch 0 0 0 1=on,x=On -
---- status 6
script line 1: State

== a bad entry is found before doubled ones
batch 0 0 0 1=On,1=Off,x -
---- status 6
script line 1: Number

== a control that stands twice in a batch
batch 0 0 0 1=On,2=On,1=Off -
---- status 6
script line 1: DoubledEntry

== doubled entries are found before the overrides are read
batch 0 0 0 1=On,1=On x
---- status 6
script line 1: DoubledEntry

== 17 entries are too many, whatever they are
batch 0 0 0 1=On,2=On,3=On,4=On,5=On,6=On,7=On,8=On,9=On,10=On,11=On,12=On,13=On,14=On,15=On,16=On,x -
---- status 6
script line 1: TooManyEntries

== a hyphen stands alone, not before overrides
batch 0 0 0 1=On -,1
---- status 6
script line 1: Number

== an override with a sign
batch 0 0 0 1=On -1
---- status 6
script line 1: Number

== a hyphen stands alone, not behind overrides
batch 0 0 0 1=On 1,-
---- status 6
script line 1: Number

== an empty override
batch 0 0 0 1=On 1,,2
---- status 6
script line 1: Number

== 17 overrides are too many, whatever they are
batch 0 0 0 1=On 1,2,3,4,5,6,7,8,9,10,11,12,13,14,15,16,x
---- status 6
script line 1: TooManyEntries

== the name of a rule is tested first
assert 0 0 0 01234567890123456789012345678901234567890123456789012345678901234 x x x
---- status 6
script line 1: Name

== the wait of a rule is tested before its controls and its configuration
assert 0 0 0 r XOR x 1,1
---- status 6
script line 1: Number

== an assertion at an endpoint that isn't built
assert 1 x 0 r AND 0 1
---- status 6
script line 1: Word

== a gate at an endpoint that isn't built
gate 1 x 0 g AND 0 1 2
---- status 6
script line 1: Word

== the time of an assertion is tested before its name
assert 0 x 0 01234567890123456789012345678901234567890123456789012345678901234 AND 0 1
---- status 6
script line 1: Number

== the token of a gate is tested before its name
gate 0 0 x 01234567890123456789012345678901234567890123456789012345678901234 AND 0 1 2
---- status 6
script line 1: Number

== the name of a gate is tested before its wait
gate 0 0 0 01234567890123456789012345678901234567890123456789012345678901234 AND x 1 2
---- status 6
script line 1: Name

== a gate with a wait of more than seven days
gate 0 0 0 g AND 604800001 1 2
---- status 6
script line 1: Number

== a wait of more than seven days
assert 0 0 0 r AND 604800001 1
---- status 6
script line 1: Number

== the controls of a rule are tested before its configuration
assert 0 0 0 r XOR 0 x
---- status 6
script line 1: Number

== doubled controls are found before the configuration is tested
assert 0 0 0 r XOR 0 1,1
---- status 6
script line 1: DoubledEntry

== an empty control of a rule
assert 0 0 0 r AND 0 1,
---- status 6
script line 1: Number

== a bad control is found before doubled ones
assert 0 0 0 r AND 0 1,1,x
---- status 6
script line 1: Number

== 33 controls are too many, whatever they are
assert 0 0 0 r AND 0 1,2,3,4,5,6,7,8,9,10,11,12,13,14,15,16,17,18,19,20,21,22,23,24,25,26,27,28,29,30,31,32,x
---- status 6
script line 1: TooManyEntries

== a configuration that isn't there
assert 0 0 0 r XOR 0 1
---- status 6
script line 1: Config

== a configuration in small letters
assert 0 0 0 r and 0 1
---- status 6
script line 1: Config

== a configuration that is inverted twice
assert 0 0 0 r !!AND 0 1
---- status 6
script line 1: Config

== an exclamation mark alone
assert 0 0 0 r ! 0 1
---- status 6
script line 1: Config

== an exclamation mark behind the type
assert 0 0 0 r AND! 0 1
---- status 6
script line 1: Config

== AND takes no number
assert 0 0 0 r AND:1 0 1
---- status 6
script line 1: Config

== AND takes no colon
assert 0 0 0 r AND: 0 1
---- status 6
script line 1: Config

== ATLEAST without a number
assert 0 0 0 r ATLEAST 0 1
---- status 6
script line 1: Config

== ATLEAST with an empty number
assert 0 0 0 r ATLEAST: 0 1
---- status 6
script line 1: Config

== ATLEAST with 0
assert 0 0 0 r ATLEAST:0 0 1,2
---- status 6
script line 1: Config

== ATLEAST with a leading zero
assert 0 0 0 r ATLEAST:01 0 1
---- status 6
script line 1: Config

== ATLEAST with more than the asserted controls
assert 0 0 0 r ATLEAST:3 0 1,2
---- status 6
script line 1: Config

== ATLEAST with 1 beyond 2 to the power of 16
assert 0 0 0 r ATLEAST:65537 0 1,2
---- status 6
script line 1: Config

== ATLEAST with a number of more than 64 bits
assert 0 0 0 r ATLEAST:18446744073709551617 0 1,2
---- status 6
script line 1: Config

== the gating controls are tested before the targets
gate 0 0 0 g AND 0 x 1,1
---- status 6
script line 1: Number

== doubled gating controls are found before the configuration is tested
gate 0 0 0 g XOR 0 1,1 x
---- status 6
script line 1: DoubledEntry

== the configuration of a gate is tested before its targets
gate 0 0 0 g XOR 0 1 x
---- status 6
script line 1: Config

== ATLEAST with more than the gating controls
gate 0 0 0 g ATLEAST:2 0 1 2,3
---- status 6
script line 1: Config

== a target that is no number
gate 0 0 0 g AND 0 1 x
---- status 6
script line 1: Number

== a target that stands twice
gate 0 0 0 g AND 0 1 2,3,2
---- status 6
script line 1: DoubledEntry

== 33 targets are too many
gate 0 0 0 g AND 0 1 1,2,3,4,5,6,7,8,9,10,11,12,13,14,15,16,17,18,19,20,21,22,23,24,25,26,27,28,29,30,31,32,x
---- status 6
script line 1: TooManyEntries

== 33 gating controls are too many
gate 0 0 0 g AND 0 1,2,3,4,5,6,7,8,9,10,11,12,13,14,15,16,17,18,19,20,21,22,23,24,25,26,27,28,29,30,31,32,x 1
---- status 6
script line 1: TooManyEntries

== the wait of a gate is tested before its controls
gate 0 0 0 g AND x x,x x
---- status 6
script line 1: Number
