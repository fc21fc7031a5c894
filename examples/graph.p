% A path of two edges leads from one node to another.
tff(node_type,type,node: $tType).
tff(edge_type,type,edge: (node * node) > $o).
tff(a_type,type,a: node).
tff(b_type,type,b: node).
tff(c_type,type,c: node).
tff(first,axiom,edge(a,b)).
tff(second,axiom,edge(b,c)).
tff(two_steps,conjecture,? [X: node] : (edge(a,X) & edge(X,c))).
