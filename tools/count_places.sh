#!/usr/bin/env bash
# Counts, in src/ of every crate, the places of which docs/DESIGN-PASS.md speaks. Run at the top of a checkout.
set -euo pipefail
count() {
    printf '%-3s %-72s %4s\n' "$1" "$2" "$(grep -rhoE --include='*.rt' -e "$3" crates/*/src | wc -l || true)"
}
count 1a 'enums'                                             '^(pub )?enum '
count 1b 'cases of an enum for a refusal, for none or for the value' \
    '^ +(Refused|Unread|Nowhere|NoBundle|Unknown|Plain|Update|At|Is|Items|Compared|Written|Answered|Offered|FirstUnreported|SecondUnreported|Unreported|UnfitLine|Hours)(\(.*\))?,$'
count 1c 'fields for the number of an error, 0 where there was none' '(error|reading|writing): u64'
count 1d 'fields that are a flag'                            '^ +(pub )?[a-z]+: bool,$'
count 1e 'fields for a kind byte'                            '^ +pub kind: u8,$'
count 1f 'constants that number commands, or stand for none' '^pub const (STORE|BUFFER|OTHER_STORE|OTHER_BUFFER|LET|FRESH|OFFER|ASK|WRITE|NEW|REPORT|CHANGE|VIEW|COMPARE|READ|ORDER|FULL|SHORT|ROOMS|BUNDLE|RAW|LOOKUP|SPREAD|ASKS|NOTHING|HEADING|UNREAD|SLOTS): usize = [0-9]+;$'
count 2a 'functions that widen a number'                     'fn wide\('
count 2b 'other twins, by name'                              'fn (high|low|least|larger|length_at|pair_at|try_read|try_write|read_again|write_again|put_add|put_remove|put_insert|put_delete|covers|comparable|unordered|is_above)\b'
count 2c 'additions that wrap, by a function for the width'  'wrapping_add_(u32|usize)\('
count 3a 'loops by while'                                    '^ +while '
count 3b 'loops by for'                                      '^ +for '
count 4a 'calls of a function for equality, order or standing' '(bytes_order::(same|compare)|has_standing|compare_ids|number_of|has_id)\('
count 4b 'arms that answer true or false'                    '=> (true|false),$'
count 4c 'conversions by as'                                 ' as (u8|u16|u32|u64|usize)\b'
count 5a 'clauses: no more places are taken than there are'  '(requires|ensures).*used ≤ places'
count 5b 'clauses PlaceIn'                                   'PlaceIn \('
count 5c 'parameters: a ledger and its store'                'l: Ledger, store: &'
count 5d 'parameters: a page and a position'                 'page: &mut \[u8\], at: usize'
count 6a 'arrays with a count beside them'                   ': \[usize; PLACES\],$'
count 6b 'parameters: a line buffer and its length'          'line: &(mut )?\[u8\], fill: usize|^ +fill: usize,$'
count 7  'parameters of an enum that chooses a function'     '(effect: Effect|key: Key|evidence: Evidence|part: Part|form: Form)'
