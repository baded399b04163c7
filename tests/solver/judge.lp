% The stable assignments of document 01 as answer sets. Cases come as facts case(K), nodes(K,N), edge(K,P,A,B), parked(K,P,A,B), path(K,I,..), shape(K,S,..), and with links to add chosen(K,P,A,B); on(K) says which of them are asked.
% Each pair has two atoms: v, valid, and p, valid or undetermined, which hold if its rule does: rv and rp. A rule for v reads its references in v and a not as not p; a rule for p reads them in p and a not as not v.

live(K,0..N-1) :- nodes(K,N).

% document 02, point 4: an edge that is parked gives no fillers
link(K,P,A,B) :- edge(K,P,A,B), not parked(K,P,A,B).
% point 10: a chosen one counts even if that edge is parked
link(K,P,A,B) :- chosen(K,P,A,B).

fill(K,I,A,B) :- path(K,I,forward(P)), link(K,P,A,B).
fill(K,I,B,A) :- path(K,I,backward(P)), link(K,P,A,B).
fill(K,I,A,B) :- path(K,I,union(J,_)), fill(K,J,A,B).
fill(K,I,A,B) :- path(K,I,union(_,J)), fill(K,J,A,B).
fill(K,I,A,C) :- path(K,I,sequence(F,G)), fill(K,F,A,B), fill(K,G,B,C).
fill(K,I,A,A) :- path(K,I,star(_)), live(K,A).
fill(K,I,A,C) :- path(K,I,star(J)), fill(K,I,A,B), fill(K,J,B,C).

differ(K,S,A) :- shape(K,S,same(F,G)), fill(K,F,A,B), not fill(K,G,A,B).
differ(K,S,A) :- shape(K,S,same(F,G)), fill(K,G,A,B), not fill(K,F,A,B).

rv(K,S,A) :- on(K), shape(K,S,top), live(K,A).
rv(K,S,A) :- on(K), shape(K,S,node(A)), live(K,A).
rv(K,S,A) :- on(K), shape(K,S,and(T,U)), live(K,A), v(K,T,A), v(K,U,A).
rv(K,S,A) :- on(K), shape(K,S,or(T,_)), live(K,A), v(K,T,A).
rv(K,S,A) :- on(K), shape(K,S,or(_,T)), live(K,A), v(K,T,A).
rv(K,S,A) :- on(K), shape(K,S,deny(T)), live(K,A), not p(K,T,A).
rv(K,S,A) :- on(K), shape(K,S,same(_,_)), live(K,A), not differ(K,S,A).
rv(K,S,A) :- on(K), shape(K,S,all(P,T)), live(K,A), v(K,T,B) : fill(K,P,A,B).
rv(K,S,A) :- on(K), shape(K,S,least(N,P,T)), live(K,A), N <= #count { B : fill(K,P,A,B), v(K,T,B) }.

rp(K,S,A) :- on(K), shape(K,S,top), live(K,A).
rp(K,S,A) :- on(K), shape(K,S,node(A)), live(K,A).
rp(K,S,A) :- on(K), shape(K,S,and(T,U)), live(K,A), p(K,T,A), p(K,U,A).
rp(K,S,A) :- on(K), shape(K,S,or(T,_)), live(K,A), p(K,T,A).
rp(K,S,A) :- on(K), shape(K,S,or(_,T)), live(K,A), p(K,T,A).
rp(K,S,A) :- on(K), shape(K,S,deny(T)), live(K,A), not v(K,T,A).
rp(K,S,A) :- on(K), shape(K,S,same(_,_)), live(K,A), not differ(K,S,A).
rp(K,S,A) :- on(K), shape(K,S,all(P,T)), live(K,A), p(K,T,B) : fill(K,P,A,B).
rp(K,S,A) :- on(K), shape(K,S,least(N,P,T)), live(K,A), N <= #count { B : fill(K,P,A,B), p(K,T,B) }.

v(K,S,A) :- rv(K,S,A).
p(K,S,A) :- rp(K,S,A).

:- v(K,S,A), not p(K,S,A).
