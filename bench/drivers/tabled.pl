% SWI-Prolog with tabling: a grammar over positions, whose tables hold the spans of each nonterminal. A recogniser.
% Ends with status 0 where the input is permitted.
:- dynamic ch/2.

main :-
    current_prolog_flag(argv, Words),
    append(_, [Grammar, Input], Words),
    load_files(Grammar, [silent(true)]),
    read_file_to_codes(Input, Codes, []),
    add_characters(Codes, 0, N),
    ( top(0, J), J =:= N -> halt(0) ; halt(1) ).

add_characters([], N, N).
add_characters([C | Cs], I, N) :-
    assertz(ch(I, C)),
    J is I + 1,
    add_characters(Cs, J, N).
