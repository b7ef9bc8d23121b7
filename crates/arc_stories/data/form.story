# The form of these files.
#
# Prose comes first, each line of it empty or with `#` in front. A case is a line `== TITLE`; the lines of a script, just as they
# stand; the line `----`, or `---- status N` where the drill ends with another status than 0; and the report that is wanted. Empty
# lines at its end don't belong to it. Titles differ.
#
# `loop n 1 3` stands for the lines up to `endloop`, with n = 1, 2 and 3. In them `{n}` is the number; `{n+3}`, `{2n}` and `{2n+1}` are
# computed; `{n+1:016x}` has sixteen hexadecimal digits at least. What has braces and is none of these stays as it stands.

== an empty script has an empty report
----

== each step has a line of the report
get 0 0 0 1
crash 0
----
slot 0 token 1 404 {"Reason":"NotFound","Resource":"arn:arc:control/0000000000000001","__type":"ResourceNotFoundException"}
crash 0

== comments and empty lines belong to the script, and have no line of the report
# Nobody is asked anything before the crash.

crash 0

restart 0
----
crash 0
restart 0 up 2

== a text that is no script ends with another status
crash 0
walk
---- status 6
script line 2: Word

== the lines that are counted are those of the unrolled script
# one
loop n 1 3
crash 0
restart 0
endloop
walk
---- status 6
script line 8: Word

== a loop stands for its lines, once for each number
loop n 8 10
slots {n}
endloop
---- status 6
script line 2: Slots

== a loop may have one number, or none
loop n 7 7
slots {n}
endloop
loop n 8 7
slots {n}
endloop
----
slots 7

== a number has its place in names, texts and identifiers
loop n 0 2
new 0 {n} {n} cell-{n+1}
endloop
loop n 1 3
set 0 {n+2} 0 {n} On
get 0 {n+2} 0 {n}
endloop
----
loop n 0 2
slot {n} token {n+1} 200 {"RoutingControl":{"ControlPanelArn":"arn:arc:panel/0000000000000001","Name":"cell-{n+1}","RoutingControlArn":"arn:arc:control/{n+1:016x}"}}
endloop
loop n 1 3
slot {2n+1} token {2n+2} 200 {}
slot {2n+2} token {2n+3} 200 {"RoutingControlArn":"arn:arc:control/{n:016x}","RoutingControlName":"cell-{n}","RoutingControlState":"On"}
endloop

== identifiers count in hexadecimal digits
loop control 9 17
get 0 0 0 {control}
endloop
----
loop place 0 8
slot {place} token {place+1} 404 {"Reason":"NotFound","Resource":"arn:arc:control/{place+9:016x}","__type":"ResourceNotFoundException"}
endloop

== a loop and a list of its lines say the same
loop n 5 6
get 0 {n} 0 {3n+1}
endloop
----
slot 0 token 1 404 {"Reason":"NotFound","Resource":"arn:arc:control/0000000000000010","__type":"ResourceNotFoundException"}
slot 1 token 2 404 {"Reason":"NotFound","Resource":"arn:arc:control/0000000000000013","__type":"ResourceNotFoundException"}

== a width is the least number of digits
loop n 1 1
new 0 0 0 {4096n:03x}-{255n:03x}-{n:01x}
endloop
----
slot 0 token 1 200 {"RoutingControl":{"ControlPanelArn":"arn:arc:panel/0000000000000001","Name":"1000-0ff-1","RoutingControlArn":"arn:arc:control/0000000000000001"}}

== outside of loops, and where a loop has another name, braces stay
new 0 0 0 {n}
loop n 1 1
new 0 0 0 {m}{nn}{n-1}{{n}}
endloop
----
slot 0 token 1 200 {"RoutingControl":{"ControlPanelArn":"arn:arc:panel/0000000000000001","Name":"{n}","RoutingControlArn":"arn:arc:control/0000000000000001"}}
slot 1 token 2 200 {"RoutingControl":{"ControlPanelArn":"arn:arc:panel/0000000000000001","Name":"{m}{nn}{n-1}{1}","RoutingControlArn":"arn:arc:control/0000000000000002"}}
