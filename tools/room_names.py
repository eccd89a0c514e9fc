"""Which crate has what a crate had before crates were joined, and which names of files changed by that."""

# old name: new name
RENAMED = {
    "ig_endings": "ig_command_endings",
    "ig_examples": "ig_meaning_examples",
    "ig_live": "ig_forest_live",
    "ig_parse_tests": "ig_tests_parse",
    "ig_print": "ig_show_trees",
    "ig_turns_tests": "ig_tests_turns",
}

# new name: the crates that it joins, lowest first, each with what has to have another name there:
# mods, specs and proofs are files, root is the module that gets what stood in a root file
JOINED = {
    "ig_blocks_parts": {
        "ig_blocks_laws": {"proofs": {"Forms": "MadeForms"}},
        "ig_columns": {"specs": {"Code": "ColumnCode"}},
        "ig_forms": {"specs": {"Code": "FormCode"}},
    },
    "ig_command_answers": {"ig_answers": {}, "ig_pages": {}},
    "ig_command_jobs": {"ig_jobs": {}, "ig_parse_jobs": {"mods": {"job": "parse_job", "parsing": "parse_run"}, "specs": {"Jobs": "ParseJobs"}}},
    "ig_command_sources": {
        "ig_refusals": {},
        "ig_sources": {},
    },
    "ig_core": {"ig_core_laws": {}, "ig_nonterminals": {}, "ig_core": {}},
    "ig_ebnf": {"ig_lists": {}, "ig_ebnf": {}},
    "ig_ebnf_variables": {"ig_ebnf_laws": {}, "ig_variables": {}},
    "ig_grammar": {"ig_grammar": {}, "ig_declarations": {}},
    "ig_levels": {"ig_levels_laws": {"proofs": {"Bounds": "WithBounds"}}, "ig_operands": {}, "ig_levels": {}},
    "ig_lexical": {"ig_lexical_laws": {}, "ig_filters": {}, "ig_layout": {}},
    "ig_load": {
        "ig_load_texts": {"mods": {"laws": "input_laws"}, "specs": {"Laws": "InputLaws"}},
        "ig_load_grammar": {},
        "ig_load": {},
    },
    "ig_notation": {"ig_symbols": {}, "ig_notation": {}},
    "ig_notation_syntax": {
        "ig_syntax": {},
        "ig_rules": {"root": "rule_laws", "specs": {"Laws": "RuleLaws"}},
        "ig_tokens": {"mods": {"laws": "token_laws"}, "specs": {"Laws": "TokenLaws"}},
    },
    "ig_notation_terms": {"ig_limits": {}, "ig_readers": {}, "ig_parts": {}},
    "ig_parse": {"ig_parse": {}, "ig_facts_laws": {"root": "fact_laws", "specs": {"Laws": "FactLaws"}}},
    "ig_pass": {"ig_traversal": {}, "ig_rewrite": {}, "ig_rooting": {}},
    "ig_run_laws": {"ig_run_laws": {"proofs": {"Renaming": "LeastNames"}}, "ig_finish": {}},
    "ig_run_moves": {"ig_calls": {}, "ig_found": {}, "ig_moves": {}},
    "ig_run_tables": {"ig_steps": {}, "ig_tables": {}},
    "ig_scope": {
        "ig_conditions": {},
        "ig_alternatives": {"specs": {"Told": "AlternativesTold", "Places": "AlternativePlaces"}},
        "ig_scope": {},
    },
    "ig_show": {
        "ig_spelling": {"mods": {"laws": "spelling_laws"}, "specs": {"Laws": "SpellingLaws", "Writing": "Appending"}, "proofs": {"Steps": "NumberSteps"}},
        "ig_show": {},
    },
    "ig_show_texts": {
        "ig_pieces": {},
        "ig_core_text": {"proofs": {"Added": "CoreAdded", "Listing": "CoreListing"}},
        "ig_forest_text": {"proofs": {"Listing": "ForestListing"}},
        "ig_facts_text": {"proofs": {"Added": "FactsAdded"}},
    },
    "ig_system": {"ig_files": {}, "ig_program": {}},
    "ig_tool": {"ig_batch": {}, "ig_tool": {}},
    "ig_turns": {"ig_turns": {}, "ig_batch_list": {"mods": {"list": "job_list", "parts": "job_line"}}},
    "ig_verify_laws": {
        "ig_verify_laws": {"mods": {"laws": "reduced_laws"}, "specs": {"Laws": "ReducedLaws"}},
        "ig_core_names": {"mods": {"laws": "name_laws"}, "specs": {"Laws": "NameLaws"}},
        "ig_core_integers": {"mods": {"laws": "integer_laws"}, "specs": {"Laws": "IntegerLaws"}},
        "ig_certificates": {"mods": {"laws": "certificate_laws"}, "specs": {"Laws": "CertificateLaws"}},
    },
    "ig_w3c": {"ig_w3c": {}, "ig_w3c_show": {"mods": {"laws": "text_laws"}, "specs": {"Laws": "TextLaws"}}},
    "ig_w3c_syntax": {
        "ig_w3c_tokens": {"mods": {"laws": "token_laws"}, "specs": {"Laws": "TokenLaws", "Forms": "TokenForms"}},
        "ig_w3c_rules": {"root": "rule_laws", "specs": {"Laws": "RuleLaws", "Forms": "RuleForms"}},
    },
}

# sentences of sources that named a crate which is the own one now: file: (old, new)
SENTENCES = {
    "ig_levels/src/lower.rt": ("exactly as `ig_levels` says", "exactly as `specs/Levels.antt` says"),
    "ig_lexical/src/layout.rt": ("exactly as `ig_lexical` says", "exactly as `specs/Layout.antt` says"),
    "ig_lexical/src/filters.rt": ("exactly as `ig_lexical` says", "exactly as `specs/Filters.antt` says"),
}

NEW_NAME = {**RENAMED, **{old: new for new, parts in JOINED.items() for old in parts}}
CHANGES = {old: change for parts in JOINED.values() for old, change in parts.items()}


def new_name(crate):
    """The name of the crate that has what this one had."""
    return NEW_NAME.get(crate, crate)
