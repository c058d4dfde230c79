# shellcheck shell=bash
# Calls that PyKMIP does not answer.
fake good
call_is 'random bytes' 0 rng 5
says 'so many as were asked' '"random_bytes": *"0001020304"'
call_is 'an attribute more' 0 attribute-add k 'group=a group'
says 'is as it was asked' '"name": *"Object Group".*"ObjectGroup": *"a group"'
call_is 'another value of an attribute' 0 attribute-modify k 'name=a=b' index=1
says 'has its index' '"index": *1'
says 'and its value' '"name_value": *"a=b"'
call_is 'an attribute less' 0 attribute-delete k 'Object Group' index=2
says 'is told' '"name": *"Object Group"'
call_is 'two attributes at once' 2 attribute-add k name=a group=b
call_is 'an attribute that has another value' 2 attribute-add k state=Lost
call_is 'an attribute of no object' 2 attribute-add '' name=a
