#!/usr/bin/env bash
# The pages are written in the words that a reader searches for: no word or phrase of the list below stands in
# README.md, man/*, docs/*.md or bench/README.md, and no sentence of the plain ones has more than 40 words.
#
# Not looked at are quotations, code spans, examples, a macro's arguments (identifiers and log texts) and the pages
# that are made from the code. It prints FILE:LINE with each word and each sentence that is found.
set -u
name=$(basename "$0" .sh)
cd "$(dirname "$0")/.." || exit 1
if ! perl -e 1 2> /dev/null; then
    echo "$name: no perl here: the words and the sentences of the pages: skipped"
    exit 0
fi
found=$(mktemp) || exit 1
trap 'rm -f "$found"' EXIT

perl - README.md bench/README.md docs/*.md man/*.[15] > "$found" << 'END'
use strict;
use warnings;

# What isn't written, and the word to take. Each is a regular expression that is looked for as whole words.
my @avoided = (
    'behind' => 'after',
    'wanting|for want of|want of memory|lacks? memory' => 'missing, out of memory',
    'wants?' => 'needs',
    'doubles|a double(?! (?:quote|negation))' => 'duplicates',
    'moments?' => 'the current time, a timestamp',
    'told(?! to\b)|tells? of' => 'logged, reported',
    '(?:bring|brings|brought) to the store' => 'synced to disk',
    'a front of|the front of|fronts' => 'the first part of, the start of',
    'pass(?:es|ed) (?:over|by)' => 'skipped',
    '(?-i:set-user-id)|the rights of' => 'set-user-ID, the privileges of',
    'in earnest' => 'for real',
    'anew' => 'again, rewritten',
    '(?<!there )is (?-i:none)(?! of\b)' => 'is not valid, is no ..',
    'bad words|words (?:that )?(?:aren\'t|isn\'t|are not) read' => 'a usage error',
    'words of (?:the|its|a) command line' => 'arguments',
    'seen from' => 'relative to',
    'a whole name' => 'an absolute path',
    'as it comes' => 'by default',
    'stands?(?! for\b)' => 'is, exists',
    'where (?:there (?:is|are|was|were)|nothing|none|no|neither|(?:it|they|one) (?:is|are) (?:un)?set)' => 'if',
    'heads?' => 'header',
    '(?<!MH )(?<!mail )(?-i:[Ff]olders?)' => 'directory, if it is no mail folder',
    '(?:isn\'t|is not|aren\'t|are not) claimed' => 'is not guaranteed',
    'a trial|the trial|trials' => 'a test delivery',
    'cop(?:y|ies) of (?:the|a) process' => 'a clone',
    '(?:give|gives|given|gave|giving) back' => 'release, released',
    'filings?' => 'deliveries to directories',
    'defects?' => 'a syntax error',
    'lines? From' => 'the From line',
);
my $limit = 40;
my $plain = qr{^(?:README\.md|man/.*|docs/(?:KNOWN_BUGS|PROMISES|DECISIONS|CASES|WORKING)\.md)$};
my $made = qr{^docs/(?:LAYERS|PROMISE_LIST|SURFACE)\.md$};

# A word that goes over the end of a line is found where it ends.
sub words_in {
    my ($file, $line, $before, $text) = @_;
    my $both = length $before ? "$before $text" : $text;
    for (my $at = 0; $at < @avoided; $at += 2) {
        while ($both =~ /\b(?:$avoided[$at])\b/gi) {
            next if pos($both) <= length $before;
            print "$file:$line: '$&' (better: $avoided[$at + 1])\n";
        }
    }
}

# A stretch of prose, in pieces of [line, text], which ends where the page has no sentence that goes on.
sub sentences_in {
    my ($file, @pieces) = @_;
    my ($start, $count, $first) = (0, 0, '');
    for my $piece (@pieces) {
        my ($line, $text) = @$piece;
        for my $part (split /(?<=[.!?])(?=["')*_]*\s)|(?<=[.!?]["')*_])(?=\s)/, "$text ") {
            my @words = grep { /\w/ } split ' ', $part;
            $start = $line if !$count && @words;
            $first .= " $part" if length $first < 60;
            $count += @words;
            if ($part =~ /[.!?]["')*_]*\s*$/) {
                report($file, $start, $count, $first);
                ($count, $first) = (0, '');
            }
        }
    }
    report($file, $start, $count, $first);
}

sub report {
    my ($file, $line, $count, $first) = @_;
    $first =~ s/^\s+|\s+$//g;
    $first =~ s/\s+/ /g;
    print "$file:$line: a sentence of $count words: ", substr($first, 0, 60), " ..\n" if $count > $limit;
}

# A page in Markdown: paragraphs, items, cells of tables.
sub markdown {
    my ($file, @lines) = @_;
    my ($fenced, $before, @pieces) = (0, '');
    my $end = sub { sentences_in($file, @pieces) if $file =~ $plain; @pieces = (); $before = '' };
    for my $at (0 .. $#lines) {
        my $text = $lines[$at];
        if ($text =~ /^\s*```/) { $fenced = !$fenced; $end->(); next }
        next if $fenced;
        if ($text =~ /^\s*>/ || $text =~ /^\s*$/ || $text =~ /^    /) { $end->(); next }
        $end->() if $text =~ s/^(?:#+|\s*(?:[-*+]|\d+\.))\s+//;
        $text =~ s/\]\([^)]*\)/]/g;
        my $prose = $text;
        $prose =~ s/"[^"]*"/"_"/g;
        $prose =~ s/`[^`]+`/_/g;
        words_in($file, $at + 1, $before, $prose);
        $before = $prose;
        $text =~ s/`([^`]+)`/(my $code = $1) =~ s{[.!?|]}{_}g; $code/ge;
        if ($text =~ /^\|/) {
            sentences_in($file, [$at + 1, $_]) for $file =~ $plain ? split(/(?<!\\)\|/, $text) : ();
            $before = '';
            next;
        }
        push @pieces, [$at + 1, $text];
    }
    $end->();
}

# A manual page: lines of text, and macros whose arguments are words of the sentence, but no prose.
sub manual {
    my ($file, @lines) = @_;
    my ($shown, $skipped, $before, @pieces) = (0, 0, '');
    my $end = sub { sentences_in($file, @pieces); @pieces = (); $before = '' };
    for my $at (0 .. $#lines) {
        my $text = $lines[$at];
        if ($text =~ /^\.Bd/) { $end->(); $shown = 1; next }
        if ($text =~ /^\.Ed/) { $shown = 0; next }
        next if $shown || $text =~ /^\.\\"/;
        if ($text =~ /^\.Sh /) { $skipped = $text =~ /SYNOPSIS|SEE ALSO/ }
        if ($text =~ /^\.(?:Sh|Ss|Pp|Bl|El|It|Nd|Dd|Dt|Os|Dl|D1)\b/) {
            $end->();
            words_in($file, $at + 1, '', substr $text, 4) if $text =~ /^\.(?:Sh|Ss|Nd)/;
            next;
        }
        next if $skipped;
        if ($text =~ s/^\.[A-Z][a-z0-9]? ?//) {
            # An argument of one mark is no word, and a last one that ends a sentence ends it here too.
            $text =~ s/\\&//g;
            $text =~ s/[.!?](?=\S)/_/g;
            $text =~ s/ ([.,;:!?)])/$1/g;
            $text =~ s/\b(?:Ns|Ar|Fl|Cm|Ev|Li|Ql|Pa|Ic|Op|No|Em|Xr)\b ?//g;
            push @pieces, [$at + 1, length $text ? $text : 'name'];
            $before = '';
            next;
        }
        $text =~ s/\\&|\\[a-z]//g;
        my $prose = $text;
        $prose =~ s/\\\(dq.*?\\\(dq|"[^"]*"/"_"/g;
        words_in($file, $at + 1, $before, $prose);
        $before = $prose;
        push @pieces, [$at + 1, $text];
    }
    $end->();
}

for my $file (@ARGV) {
    next if $file =~ $made;
    open my $page, '<', $file or die "$file: $!\n";
    chomp(my @lines = <$page>);
    close $page;
    $file =~ /\.md$/ ? markdown($file, @lines) : manual($file, @lines);
}
END
status=$?
[ "$status" -eq 0 ] || { echo "$name: the pages can't be read" >&2; exit 1; }
if [ -s "$found" ]; then
    cat "$found"
    echo "$name: $(wc -l < "$found") words or sentences to mend" >&2
    exit 1
fi
echo "$name: passed"
