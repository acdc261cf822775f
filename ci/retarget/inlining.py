"""Which functions are inlined: where a module is built for size only what is named here, and what the compiler finds to be smaller so;
where it is built for speed some more than the compiler finds.

The attributes of the module are made for speed. They say nothing about what a function does, so any choice is right; these are chosen by
what the functions take of flash and of the stack.
"""
from . import forms

# what makes a value as large as a store or a running MAC, or may move one: where it is inlined the value is made where it stays, so that no
# copy is on the stack; and what is called from one place or is smaller inlined
INLINED = {
    "core::array::ArrayDefault::default",
    "core::array::DefaultsElements::at",
    "core::slice::edits::slice+T::rotate_left",
    "cose_c::fed_keys::FedKeysKeyMeaning::begin_mac",
    "cose_c::message::take_whole",
    "cose_c::table::keys::RefTableKeysKeyMeaning::begin_mac",
    "cose_head::item::short_item",
    "cose_mac::hasher::Hasher::again",
    "cose_mac::prepared::Prepared::hmac",
    "cose_mac::running::Running::digest_so_far",
    "cose_mac::running::Running::mac_so_far",
    "cose_map::choice::fitting::Fitting::answer",
    "cose_map::key_table::KeyTable::new",
    "cose_map::map::labels::Labels::none",
    "cose_map::map::labels::keys::Keys::none",
    "cose_map::map::labels::others::Others::none",
    "cose_map::map::lookup::Lookup::new",
    "cose_map::map::read::check_rising",
    "cose_map::map::unordered::Unordered::none",
    "cose_map::prepared_table::PreparedTable::begin_mac",
    "cose_map::prepared_table::PreparedTable::empty",
    "cose_msg::hashing::Hashing::finish",
    "cose_msg::hashing::Hashing::put_finished",
    "cose_msg::reader::Reader::begin_hashing",
    "cose_msg::reader::Reader::new",
    "cose_msg::verifier::Verifier::detached",
    "cose_msg::verifier::Verifier::inspecting",
    "cose_msg::verifier::Verifier::made",
    "cose_msg::verifier::Verifier::new",
}
# what is inlined too where a module is built for speed: sets of labels, what is asked of a key, running MACs and claims are made where
# they stay, and what the search for the key keeps shares its place on the stack with what is done before it and after it
SHARED = {
    "core::array::ArrayDefault::default",
    "core::array::DefaultsElements::at",
    "cose_c::claims::admitted",
    "cose_c::fed_keys::FedKeysKeyMeaning::begin_mac",
    "cose_c::message::read_whole",
    "cose_c::message::take_whole",
    "cose_c::permitted::PermittedKeysKeys::find",
    "cose_c::permitted::is_fitting",
    "cose_c::required::required_by",
    "cose_c::stated::labels_of",
    "cose_c::table::keys::RefTableKeysKeyMeaning::begin_mac",
    "cose_mac::hasher::Hasher::finish",
    "cose_map::bucket::both::check_pair",
    "cose_map::key::Key::read",
    "cose_map::key_set::KeySet::find",
    "cose_map::key_set::KeySet::find_permitted",
    "cose_map::key_set::KeySetKeys::find",
    "cose_map::key_set::usable",
    "cose_map::map::ahead::read_ahead",
    "cose_map::map::labels::Labels::none",
    "cose_map::map::labels::keys::Keys::none",
    "cose_map::map::labels::others::Others::none",
    "cose_map::map::lookup::Lookup::new",
    "cose_map::map::lookup::remove_all",
    "cose_map::map::read::check_map",
    "cose_map::map::unordered::Unordered::none",
    "cose_map::map::unordered::Unordered::push",
    "cose_map::prepared_table::PreparedTable::begin_mac",
    "cose_msg::hashing::Hashing::begin",
    "cose_msg::reader::choice::query_of",
    "cose_msg::run::take_message",
    "cose_msg::run::verify",
    "cose_msg::verifier::Verifier::feed",
    "cose_msg::verifier::Verifier::feed_across",
}
# what isn't inlined there: the search for the key isn't on the stack while both buckets are read, nor is what takes the payload
# while the headers are, nor the verifier while the claims are, nor a bucket that is asked for while a message is taken, nor what
# is for elements in order while others are read, nor the reader of an item while its label is looked for
APART = {
    "cose_c::cose_claims::no_claims",
    "cose_c::table::cose_edge_table_verify",
    "cose_c::table::under::cose_edge_table_authenticate",
    "cose_head::item_length::item_length",
    "cose_map::bucket::both::are_rising",
    "cose_map::bucket::both::with_element",
    "cose_map::label::Label::of",
    "cose_map::map::labels::Labels::clear",
    "cose_map::map::labels::keys::Keys::remove",
    "cose_map::map::labels::others::Others::remove",
    "cose_msg::reader::choice::choose",
    "cose_msg::reader::Reader::payload",
    "cose_msg::reader::choice::key_for",
    "cose_msg::verifier::Verifier::protected",
    "cose_msg::verifier::Verifier::unprotected",
}
# what is long, since there are no vectors, or is called from many places
OUT_OF_LINE = {
    "core::slice::scan::ByteMismatchLaneTest::marks",
    "cose_head::item_ref::ItemRef::content",
    "cose_head::item_ref::bytes_after",
    "cose_head::walker::Walker::pass_over",
    "cose_map::choice::query::number_of",
    "cose_msg::phase::Phase::is_settled",
    "cose_msg::reader::Reader::payload_part",
    "cose_msg::reader::Reader::refuse",
    "cose_msg::reader::Reader::truncate",
}
# what has a value as large as a store on its stack: it is not made smaller at the cost of copies
HOLDING = {
    "cose_c::authenticate::authenticated",
    "cose_c::authenticate::verdict_under",
    "cose_c::claims::verdict_on",
    "cose_c::message::cose_edge_verify",
    "cose_c::message::cose_edge_verify_detached",
    "cose_c::message::verify_large",
    "cose_c::message::verify_large_detached",
    "cose_c::stream::open",
    "cose_c::stream::open_detached",
    "cose_c::table::cose_edge_table_verify",
    "cose_c::table::under::cose_edge_table_authenticate",
    "cose_c::table::under::verdict_kept",
    "cose_c::table::verdict_on",
    "cose_mac::hasher::Hasher::finish",
    "cose_map::bucket::both::least_of_elements_in_any_order",
    "cose_map::bucket::both::with_unprotected_in_any_order",
    "cose_map::map::read::check_in_any_order",
}
# what makes a table: for speed, since the compiler then makes it where it stays
MADE_IN_PLACE = {
    "cose_c::table::fill::begin_few",
    "cose_c::table::fill::begin_many",
}
EXPORTED = "cose_"
# what takes most of the time stays as it is made for speed, but that a step, and four of them, are in one place and not in several
HASHING = "sha2::block256::"
STEPS = {
    "sha2::block256::first_four_steps",
    "sha2::block256::four_steps",
    "sha2::block256::round",
}
# what an attribute may say of inlining, and what it says of each kind of function
ABOUT = ("alwaysinline", "inlinehint", "noinline")
SIZES = {
    "plain": "optsize",
    "plain out of line": "noinline optsize",
    "small": "minsize optsize",
    "inlined": "alwaysinline optsize",
    "shared": "alwaysinline",
    "apart": "noinline",
    "out of line": "minsize noinline optsize",
}


class Inlining:
    """The attributes of the functions of one module."""

    def __init__(self, text, way="size"):
        """Takes note of the groups of attributes of the functions: what the module says of inlining, and what else."""
        self.groups, self.numbers, self.seen = {}, {}, set()
        self.is_for_speed = way == "speed"
        groups = {found["group"]: found["list"].split() for found in map(forms.ATTRIBUTES.fullmatch, text.splitlines()) if found}
        self.next = 1 + max(map(int, groups), default=0)
        for number, words in groups.items():
            about = [it for it in words if it in ABOUT]
            self.groups[number] = about, [it for it in words if it not in ABOUT]

    def kind(self, name, group):
        """How a function is compiled; None where as the module says."""
        plain = name.lstrip("@").strip('"').split("::<")[0]
        self.seen.add(plain)
        if self.is_for_speed:
            return "shared" if plain in SHARED else "apart" if plain in APART else None
        if plain in INLINED:
            return "inlined"
        if plain in OUT_OF_LINE:
            return "out of line"
        if plain in MADE_IN_PLACE:
            return None
        if plain in STEPS:
            return "plain out of line"
        if plain.startswith(HASHING):
            return "as it is"
        is_out_of_line = "noinline" in self.groups[group][0]
        if plain in HOLDING or plain.startswith(EXPORTED) and "::" not in plain:
            return "plain out of line" if is_out_of_line else "plain"
        return "out of line" if is_out_of_line else "small"

    def group(self, name, group):
        """The number of the group of attributes of a function."""
        key = self.kind(name, group), group
        if key[0] is None:
            return group
        if key not in self.numbers:
            self.numbers[key] = str(self.next)
            self.next += 1
        return self.numbers[key]

    def lines(self, others):
        """The groups that were given, of which `others` are the attributes that stay."""
        found = []
        for (kind, group), number in self.numbers.items():
            about, rest = self.groups[group]
            words = SIZES.get(kind) or " ".join([*about, "optsize"])
            found.append(f"attributes #{number} = {{ {words} {others(rest)} }}")
        return found

    def missing(self):
        """The functions that are named above and aren't there."""
        named = SHARED | APART if self.is_for_speed else INLINED | OUT_OF_LINE | STEPS | HOLDING
        return sorted(named - self.seen)
