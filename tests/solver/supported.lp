% The supported assignments of document 01 as answer sets, beside judge.lp: each v and p is free, and holds exactly if its rule does. So pairs that only vouch for each other may hold, which no stable assignment has (document 02, point 6).

{ v(K,S,A); p(K,S,A) } :- on(K), shape(K,S,_), live(K,A).
:- v(K,S,A), not rv(K,S,A).
:- p(K,S,A), not rp(K,S,A).
