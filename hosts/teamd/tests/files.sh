# Files that are no state, and ports that are not to be taken over.
bond; begin; until_state "$BOTH" 10; sleep 1
anew() { # NAME, more of the runner: no port goes on, and both come up
    take_aloud "$2"; is "$1: no port is taken over" "" "$(grep 'taken over' /run/log)"
    until_state "$BOTH" 12; is "$1: both negotiate, and carry" "$BOTH" "$(state)"; sleep 0.5
}
begin_timing; kill_it; cp $F /run/x; take_aloud; is_in_time "the file as it is: both go on" 2000 "$BOTH, 2" "$(state), $(grep -c 'taken over' /run/log)"
kill_it; head -c 500 $F >/run/x; cat /run/x >$F; anew "cut"
kill_it; head -c 3000 /dev/urandom >$F; anew "random octets"
kill_it; resum; begin_timing; take_aloud; is_in_time "with a sum that a script made: both go on" 2000 "$BOTH, 2" "$(state), $(grep -c 'taken over' /run/log)"
kill_it; sed -i '1s/2$/1/' $F; resum; anew "another version"
kill_it; sed -i '/^device/s/ \([0-9]*\)$/ 1\1/' $F; anew "another number, and the sum of before"
kill_it; sed -i '/^device/s/$/ more/' $F; resum; anew "more words in a line"
kill_it; rm $F; anew "no file"
kill_it; sed -i '/^end /d' $F; anew "no end"
kill_it; sed -i 's/ 0180c200/ 0180c2zz/' $F; resum; anew "no hexadecimal"
kill_it; sed -i 's/^\(port eth2 [0-9]*\) [0-9]* /\1 2 /; s/^\(port eth1 [0-9]*\) [0-9]* /\1 2 /' $F; resum; anew "two ports of one number"
kill_it; sed -i 's/^\(port eth2 [0-9]*\) [0-9]* /\1 0 /' $F; resum; anew "the number 0"
kill_it; awk '$1 == "port" {$11 = 99} {print}' $F >/run/x; cat /run/x >$F; resum; anew "an aggregator that is none"
# What the peer says of the system of this end.
kill_it; sed -i 's/\(0180c2000002[0-9a-f]\{68\}\)../\1ff/' $F; resum; anew "other octets"
kill_it; anew "another sys_prio" '"sys_prio":7'
kill_it; anew "and back"
begin_timing; kill_it; ip link set eth1 down; ip link set eth1 up; take_aloud; is_in_time "a link that went down meanwhile begins, and the other one goes on" 2000 "eth2 current true, carrier 1" "$(state eth2)"
until_state "$BOTH" 12; is "both carry" "$BOTH" "$(state)"
kill_it; ln -sf /run/target $F.new; take; sleep 2; is "a link in the place of the new file is not followed" "no 600" "$([ -e /run/target ] && echo yes || echo no) $(stat -c %a $F)"
end; is "no file is left" "" "$(ls /run/teamd)"
