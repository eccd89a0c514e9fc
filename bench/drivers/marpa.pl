# Marpa, by its thin interface to libmarpa: reads characters as tokens and builds the bocage, which is its forest.
# Ends with status 0 where all inputs are permitted.
use strict;
use warnings;
use Marpa::R2;

my ($grammar_file, @input_files) = @ARGV;
my $grammar = Marpa::R2::Thin::G->new({ if => 1 });
my (%symbols, @tokens, $start);
sub symbol { my ($name) = @_; return $symbols{$name} //= $grammar->symbol_new(); }

open my $lines, '<', $grammar_file or die;
while (my $line = <$lines>) {
    my ($kind, $name, @rest) = split ' ', $line;
    my $id = symbol($name);
    if ($kind eq 'term') {
        push @{ $tokens[$_] }, $id for @rest;
    }
    else {
        $start //= $id;
        $grammar->rule_new($id, [map { symbol($_) } @rest]);
    }
}
$grammar->start_symbol_set($start);
$grammar->precompute();
$grammar->throw_set(0);

local $/;
for my $input_file (@input_files) {
    open my $in, '<', $input_file or die;
    my $run = Marpa::R2::Thin::R->new($grammar);
    $run->start_input();
    for my $code (unpack 'C*', <$in>) {
        my $took = 0;
        for my $id (@{ $tokens[$code] }) {
            $took = 1 if $run->alternative($id, 1, 1) == 0;
        }
        exit 1 if !$took;
        $run->earleme_complete();
    }
    my $bocage = eval { Marpa::R2::Thin::B->new($run, $run->latest_earley_set()) };
    exit 1 if !ref $bocage;
}
