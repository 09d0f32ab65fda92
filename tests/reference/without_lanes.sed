# Removes the lanes from runs and their answers (oracle/FORMAT.md), from jobs and from listings: sed -E -f.
s/^(add [^ ]+ [^ ]+) [0-9]+$/\1/
/^= (order|row|held)-lanes( |$)/d
/^lane=/d
s/^(order=.*) lane=[0-9]+$/\1/
