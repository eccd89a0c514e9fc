% Declarations told by indentation: the columns of the block are arguments of the tabled nonterminals. M is the column to
% the right of which a token stands, F the position of the first token of the block, which may stand in its own column.
:- table p/4, ps/5, decl/4, ids/4, letters/2, blanks/2.
:- dynamic col/2.

columns(I, C) :-
    assertz(col(I, C)),
    (   ch(I, X)
    ->  ( X =:= 10 -> D = 1 ; D is C + 1 ), J is I + 1, columns(J, D)
    ;   true
    ).

letter(I, J) :- ch(I, C), C >= 0'a, C =< 0'z, J is I + 1.
blank(I, J) :- ch(I, C), ( C =:= 32 ; C =:= 10 ), !, J is I + 1.

column(-1, 0) :- !.
column(I, C) :- col(I, C).

inside(M, F, I) :- col(I, C), C > M, ( I =:= F -> true ; column(F, D), C > D ).
outer(M, F, I, X) :- ( I =:= F -> X = M ; column(F, D), X is max(M, D) ).

p(M, F, I, J) :- col(I, C), ps(M, F, C, I, J).
ps(_, _, _, I, I).
ps(M, F, C, I, J) :- ps(M, F, C, I, K), col(K, C), outer(M, F, K, X), decl(X, K, K, J).

decl(M, F, I, J) :- inside(M, F, I), id(I, A), inside(M, F, A), ch(A, 0'=), B is A + 1, layout(B, D), ids(M, F, D, J).
ids(M, F, I, J) :- inside(M, F, I), id(I, J).
ids(M, F, I, J) :- ids(M, F, I, K), inside(M, F, K), id(K, J).
id(I, J) :- letters(I, K), \+ letter(K, _), layout(K, J).

letters(I, J) :- letter(I, J).
letters(I, J) :- letters(I, K), letter(K, J).
layout(I, J) :- blanks(I, J), \+ blank(J, _).
blanks(I, I).
blanks(I, J) :- blanks(I, K), blank(K, J).

top(I, J) :- columns(0, 1), layout(I, K), p(0, -1, K, J).
