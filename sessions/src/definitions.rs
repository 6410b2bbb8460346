//! The definitions of crate `rules` that a vector computes with: which file has them, and which of them a call opens.

use crate::call::Name;

/// The files of crates/rules/specs, with the names that vectors use of them. A vector's equation is closed by
/// computing, so each definition on the way has to be opened.
const FILES: [(&str, &str); 11] = [
    (
        "declared.Outcome.TheVariants",
        "Done Number Boolean Text Count Sum NotSound ClockZero KeyEmpty KeyTooLong KindUnknown NilRefused \
         ExpiryTooLate NotFound Exists NotNumber SumTooLarge NoMemory",
    ),
    ("declared.Operation.TheVariants", "Set SafeSet Add SafeAdd Replace"),
    ("Check", "given"),
    (
        "Layout",
        "encode decode flat entries_of without to_front replace_at put key_of value_bytes number_bytes number_at \
         memory_of wiped remove remove_oldest move_to_front",
    ),
    ("Time", "dead expiry_of too_late time_left with_expiry"),
    ("LookUp", "same key_is found_from look_up"),
    ("Recency", "deads after gone any_live sweep_count sweep"),
    ("Place", "holds held free_run fit_from first_free run"),
    ("Soundness", "every any right_lengths value_fits entry_sound none_shared sound keys_differ audit"),
    ("Answer", "plain marked fields_of answer_words"),
    (
        "Checks",
        "◌then◌ refuse check_lengths check_sound check_clock check_key check_kind takes_nil check_nil check_lifetime \
         clock_checks key_checks expire_checks store_checks check_initial incr_checks",
    ),
];

/// The names of Calls, the twelfth file.
const CALLS: &str = "gave call ask fresh_work fresh_call after_sweep shown get_found get_work get_call stale_found \
    get_stale_call delete_found delete_work delete_call entry_for place_at rewrite_at overwrite_at searched is_placed \
    if_room evicted forced_by fit_outcome place_fit placed_by place_anew store_over store_item most_rounds admits \
    boolean_byte value_given store_admitted store_found store_work item_of store_call in_range add_at incr_live \
    incr_new incr_initial incr_found incr_work incr_call ttl_found ttl_call expire_at expire_found expire_call \
    flush_all_work flush_all_call flushed up_to flush_expired_work flush_expired_call row_of live_of key_count \
    key_rows listing listed keys_of get_keys_call row_words flat_listing listed_flat flat_keys_of get_keys_flat_call \
    bytes_start bytes_at_call text_found show_found text_or show_call";

const SOUND: &str = "entries_of decode holds held free_run every any right_lengths value_fits entry_sound none_shared \
    sound refuse check_sound";
const CLOCK: &str = "◌then◌ check_clock clock_checks";
const KEY: &str = "check_key key_checks";
const CHANGE: &str = "memory_of encode flat call";
const FIND: &str = "dead same key_of key_is found_from look_up";
const SWEEP: &str = "deads without put wiped remove remove_oldest sweep_count sweep after_sweep";
const READ: &str = "shown number_at";
const PUT: &str = "expiry_of entry_for place_at to_front rewrite_at overwrite_at after gone any_live fit_from \
    first_free run searched is_placed if_room evicted forced_by fit_outcome place_fit placed_by place_anew store_over \
    store_item most_rounds boolean_byte number_bytes value_given item_of";
const STORE: &str = "check_kind takes_nil check_nil too_late check_lifetime store_checks admits delete_found \
    store_admitted store_found store_work store_call";
const INCR: &str = "too_late check_lifetime check_initial incr_checks number_at in_range add_at incr_live incr_new \
    incr_initial incr_found incr_work incr_call";
const LIST: &str = "memory_of dead row_of live_of up_to key_count key_rows";

/// The definitions that a call's equation opens.
pub fn opened(name: Name) -> Vec<&'static str> {
    let groups: &[&str] = match name {
        Name::MakeFresh => &["entries_of decode right_lengths refuse check_lengths fresh_work fresh_call", CHANGE],
        Name::Audit => &[SOUND, "same key_of key_is keys_differ audit"],
        Name::Get => {
            &[SOUND, CLOCK, KEY, CHANGE, FIND, SWEEP, READ, "to_front move_to_front get_found get_work get_call"]
        }
        Name::GetStale => &[SOUND, CLOCK, KEY, FIND, READ, "memory_of ask stale_found get_stale_call"],
        Name::Ttl => &[SOUND, CLOCK, KEY, FIND, "memory_of ask time_left ttl_found ttl_call"],
        Name::BytesAt => &["bytes_start bytes_at_call"],
        Name::Show => &[SOUND, CLOCK, KEY, FIND, "memory_of value_bytes text_found show_found text_or show_call"],
        Name::Set | Name::SafeSet | Name::Add | Name::SafeAdd | Name::Replace => {
            &[SOUND, CLOCK, KEY, CHANGE, FIND, SWEEP, PUT, STORE]
        }
        Name::Incr => &[SOUND, CLOCK, KEY, CHANGE, FIND, SWEEP, PUT, INCR],
        Name::Delete => &[SOUND, CLOCK, KEY, CHANGE, FIND, SWEEP, "delete_found delete_work delete_call"],
        Name::Expire => &[
            SOUND,
            CLOCK,
            KEY,
            CHANGE,
            FIND,
            "too_late check_lifetime expire_checks expiry_of with_expiry replace_at expire_at expire_found expire_call",
        ],
        Name::FlushAll => &[SOUND, CHANGE, "with_expiry flush_all_work flush_all_call"],
        Name::FlushExpired => {
            &[SOUND, CLOCK, CHANGE, "dead without put wiped remove flushed up_to flush_expired_work flush_expired_call"]
        }
        Name::GetKeys => &[SOUND, CLOCK, LIST, "row_words listed_flat flat_keys_of get_keys_flat_call"],
    };
    names(groups)
}

/// The definitions that get_keys over rows opens.
pub fn opened_by_rows() -> Vec<&'static str> {
    names(&[SOUND, CLOCK, LIST, "listed keys_of get_keys_call"])
}

fn names(groups: &[&'static str]) -> Vec<&'static str> {
    groups.iter().flat_map(|group| group.split_ascii_whitespace()).collect()
}

/// The `use` lines for all names that stand in a text.
pub fn uses(text: &str) -> String {
    let separators = |c: char| c.is_whitespace() || "(){};=.".contains(c);
    let mut standing: Vec<&str> = text.split(separators).collect();
    standing.sort_unstable();
    let mut lines = String::new();
    for (file, names) in FILES.into_iter().chain([("Calls", CALLS)]) {
        let used = names.split_ascii_whitespace().filter(|name| standing.binary_search(name).is_ok());
        let used: Vec<&str> = used.collect();
        if !used.is_empty() {
            lines.push_str(&format!("use Rattle.rules.specs.{file}.{{{}}}\n", used.join(", ")));
        }
    }
    lines
}

#[cfg(test)]
mod tests {
    use super::*;
    use crate::call::NAMES;

    #[test]
    fn every_definition_that_a_call_opens_has_its_file() {
        let known: Vec<&str> = FILES
            .iter()
            .flat_map(|(_, names)| names.split_ascii_whitespace())
            .chain(CALLS.split_ascii_whitespace())
            .collect();
        for name in NAMES {
            for definition in opened(name).into_iter().chain(opened_by_rows()) {
                assert!(known.contains(&definition), "{definition} of {name:?}");
            }
        }
    }

    #[test]
    fn only_names_that_stand_there_are_used() {
        assert_eq!(uses("pub v : audit x ≡ true"), "use Rattle.rules.specs.Soundness.{audit}\n");
    }
}
