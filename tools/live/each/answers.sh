# shellcheck shell=bash
# What an answer says is what is told of it, and no item beside it.
for name in shadow shadow_head; do
    fake "$name"
    call_is "$name: a pair of keys" 0 create-rsa 2048 a b
    says "$name: the identifiers are those of the answer" private
    says_not "$name: and no others" evil
done
fake other_object
call_is 'an answer about another object' 3 activate mine
call_is 'a signature by another key' 3 sign mine 41
fake good
call_is 'an answer about the object that was asked' 0 activate mine
fake other_version
call_is 'an answer of another protocol version' 0 activate mine
fake unknown_reason
call_is 'a failure whose reason is in no table' 1 activate mine
says 'its number is a member of its own' '"reason": ?\{"number": ?32767\}'
says "so is the server's message" '"message": ?"not today"'
fake denied
call_is 'a failure for want of permission' 1 activate mine
says 'its reason has a name' '"reason": ?\{"name": ?"PermissionDenied", ?"number": ?12\}'
says "and the server's message is there" '"message": ?"ask \\"alice\\""'
fake many_operations
call_is 'sixty thousand operations' 0 query
lasts 'in some seconds' 10
