% A property of lists over any type, used for two types.
tff(list_type,type,list: $tType > $tType).
tff(nil_type,type,nil: !>[A: $tType]: list(A)).
tff(cons_type,type,cons: !>[A: $tType]: ((A * list(A)) > list(A))).
tff(empty_type,type,is_empty: !>[A: $tType]: (list(A) > $o)).
tff(color_type,type,color: $tType).
tff(nil_empty,axiom,! [A: $tType] : is_empty(A,nil(A))).
tff(cons_not_empty,axiom,
    ! [A: $tType,X: A,L: list(A)] : ~is_empty(A,cons(A,X,L))).
tff(goal,conjecture,
    is_empty(color,nil(color))
    & ! [C: color] : ~is_empty(color,cons(color,C,nil(color)))
    & is_empty(list(color),nil(list(color)))).
