% A set of individuals is wanted where an individual stands.
tff(set_type,type,set: $tType > $tType).
tff(empty_type,type,is_empty: !>[A: $tType]: (set(A) > $o)).
tff(one_type,type,one: $i).
tff(goal,conjecture,is_empty($i,one)).
