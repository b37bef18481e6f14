"""What the toolchain's words mean, a line each.

A word is known by the place that a `use` brings it in from, and by its name there; what the language itself has is at no place. Each
word on which a public clause of the repository rests has to have its line here.
"""
STD = "Rattle.std.specs."

# A heading, the places of its words, and each word with how it is used and what it means.
GROUPS = (
    (
        "The language",
        [""],
        {
            "→": ("A → B, (x : A) → B", "a function from A to B; of facts: B follows from A, or B holds of each x of A"),
            "×": ("A × B, (x : A) × B", "a pair, or more in a row; of facts: both hold, or there is an x of A for which B holds. `p.0` is its first part"),
            "¬": ("¬ A", "the fact A does not hold"),
            "⊥": ("⊥", "a fact that never holds"),
            "λ": ("λ x. e", "the function that answers e at x"),
            "Unit": ("Unit {0}", "the type of one value; a fact that always holds"),
            "tt": ("tt", "the one value of `Unit`"),
            "Type": ("Type 0", "the type of facts, and of types of values"),
        },
    ),
    (
        "Facts and tests",
        [STD + "Prelude", STD + "Bool"],
        {
            "◌≡◌": ("a ≡ b", "a and b are equal"),
            "◌≢◌": ("a ≢ b", "a and b are not equal"),
            "◌⊎◌": ("A ⊎ B", "one of the facts A and B holds, or both do"),
            "◌↔◌": ("A ↔ B", "each of the facts A and B follows from the other"),
            "Bool": ("Bool", "the values `true` and `false`, which tests answer"),
            "true": ("true", "the test passes"),
            "false": ("false", "the test does not pass"),
            "IsTrue": ("IsTrue b", "the test b passes"),
            "not": ("not b", "whether b is false"),
            "◌&&◌": ("a && b", "whether both are true"),
            "◌||◌": ("a || b", "whether one of them is true, or both are"),
            "if◌then◌else◌": ("if b then x else y", "x where b is true, and else y"),
            "Decides": ("Decides b A", "b is true exactly where the fact A holds"),
            "refl": ("refl", "that a value equals itself: a proof"),
        },
    ),
    (
        "Numbers",
        [STD + "Prelude", STD + "Int"],
        {
            "ℕ": ("ℕ", "the whole numbers from 0, without limit"),
            "zero": ("zero", "0, as a case of a definition"),
            "suc": ("suc n", "n + 1; as a case of a definition, a number above 0 and the one before it"),
            "◌+◌": ("m + n", "the sum"),
            "◌-◌": ("m - n", "the difference, and 0 where n is the greater"),
            "◌*◌": ("m * n", "the product"),
            "◌/◌": ("m / n", "how often n goes into m whole, and 0 where n is 0"),
            "◌%◌": ("m % n", "what is left of m then, and m where n is 0"),
            "◌^◌": ("m ^ n", "m to the power of n"),
            "◌<◌": ("m < n", "the fact that m is less than n"),
            "◌≤◌": ("m ≤ n", "the fact that m is at most n"),
            "◌==◌": ("m == n", "whether two numbers are equal"),
            "nat_eq": ("nat_eq m n", "whether two numbers are equal"),
            "nat_lt": ("nat_lt m n", "whether m is less than n"),
            "nat_le": ("nat_le m n", "whether m is at most n"),
            "min": ("min m n", "the lesser number"),
            "max": ("max m n", "the greater number"),
            "bit_at": ("bit_at n i", "the bit of n at place i, from 0 at the lowest"),
            "ℤ": ("ℤ", "the whole numbers, those below 0 too"),
            "pos": ("pos n", "n as one of them"),
            "negsuc": ("negsuc n", "the number -1 - n"),
            "◌≤ℤ◌": ("m ≤ℤ n", "m is at most n, of whole numbers that may be below 0"),
        },
    ),
    (
        "What may be missing, and answers that may be errors",
        [STD + "Prelude", STD + "Option"],
        {
            "Option": ("Option A", "a value of A, or none"),
            "Some": ("Some x", "there is a value, x"),
            "None": ("None", "there is none"),
            "is_some": ("is_some o", "whether there is a value"),
            "is_none": ("is_none o", "whether there is none"),
            "unwrap_or": ("unwrap_or o d", "the value of o, or d where there is none"),
            "IfSome": ("IfSome o P", "where o has a value, P holds of it"),
            "IfNone": ("IfNone o A", "where o has no value, the fact A holds"),
            "IsSome": ("IsSome o", "there is a value"),
            "IsSomeAnd": ("IsSomeAnd o P", "o has a value, and P holds of it"),
            "MatchOption": ("MatchOption o A P", "where o has no value, the fact A holds; where it has one, P holds of it"),
            "option_to_list": ("option_to_list o", "the list of the value, or the empty list where there is none"),
            "option_map": ("option_map f o", "f of the value, if there is one"),
            "option_map_or": ("option_map_or f o d", "f of the value of o, or d where there is none"),
            "option_and_then": ("option_and_then f o", "what f makes of the value, which may be none; none where o has none"),
            "option_or": ("option_or o p", "o where it has a value, and else p"),
            "option_eq": ("option_eq E o p", "whether both have no value, or both have one and E passes"),
            "option_copied": ("option_copied o", "the value behind a reference, if there is one"),
            "Result": ("Result A E", "a value of A, or an error of E"),
            "Ok": ("Ok x", "there is a value, x"),
            "Err": ("Err e", "there is an error, e"),
            "IsOk": ("IsOk r", "there is a value"),
            "IsErr": ("IsErr r", "there is an error"),
            "IsErrOf": ("IsErrOf r e", "r is the error e"),
            "IfOk": ("IfOk r P", "where r has a value, P holds of it"),
            "IfErr": ("IfErr r P", "where r has an error, P holds of it"),
            "OnOk": ("OnOk r A", "where r has a value, the fact A holds"),
            "OnErr": ("OnErr r A", "where r has an error, the fact A holds"),
        },
    ),
    (
        "Lists",
        [STD + "Prelude", STD + "List", STD + "Cmp.Lexicographic", "lib.Pointwise"],
        {
            "List": ("List A", "a list of values of A"),
            "[]": ("[]", "the list without items"),
            "◌∷◌": ("x ∷ xs", "the list of x and then the items of xs"),
            "◌++◌": ("xs ++ ys", "the items of xs and then those of ys"),
            "length": ("length xs", "how many items there are"),
            "map": ("map f xs", "f of each item, in order"),
            "filter": ("filter p xs", "the items that pass p, in order"),
            "filter_map": ("filter_map f xs", "the values that f has of the items, in order, without the items of which it has none"),
            "flat_map": ("flat_map f xs", "the lists that f makes of the items, one after the other"),
            "fold": ("fold f a xs", "what f makes of a and the first item, then of that and the second, and so on; a of no items"),
            "find": ("find p xs", "the first item that passes p, if there is one"),
            "list_any": ("list_any p xs", "whether some item passes p"),
            "list_all": ("list_all p xs", "whether each item passes p"),
            "All": ("All P xs", "P holds of each item"),
            "Any": ("Any P xs", "P holds of some item"),
            "AllByRecursion": ("AllByRecursion P xs", "P holds of each item; as `All`, in a form for definitions that call themselves"),
            "AllPairs": ("AllPairs R xs", "R holds of each item and each later one"),
            "Contains": ("Contains xs x", "x is an item of xs"),
            "sum_by": ("sum_by f xs", "the sum of the numbers that f has of the items"),
            "count_by": ("count_by p xs", "how many items pass p"),
            "take": ("take n xs", "the first n items, or all where there are fewer"),
            "drop": ("drop n xs", "the items after the first n, and none where there are fewer"),
            "replicate": ("replicate n x", "the list of n times x"),
            "range_with_len": ("range_with_len a n", "the n numbers from a on"),
            "slice_get": ("slice_get xs k", "the item at place k, from 0, if there is one"),
            "slice_index": ("slice_index xs k", "the number at place k, from 0, or 0 where there is none"),
            "slice_index_or": ("slice_index_or xs k d", "the item at place k, from 0, or d where there is none"),
            "slice_set": ("slice_set xs k x", "xs with x at place k; xs itself where there is no such place"),
            "slice_range": ("slice_range xs i j", "the items from place i to before place j"),
            "prefix_len": ("prefix_len p xs", "how many items at the front pass p, up to the first that does not"),
            "suffix_len": ("suffix_len p xs", "how many items at the end pass p, back to the last that does not"),
            "position_or_len": ("position_or_len p xs", "the place of the first item that passes p, or the length where none does"),
            "before_first": ("before_first p xs", "the items before the first that passes p, or all where none does"),
            "after_first": ("after_first p xs", "the items after the first that passes p, or none where none does"),
            "onto_first": ("onto_first x xss", "the lists with x put in front of the first of them; the list of x alone where there is none"),
            "pointwise": ("pointwise E xs ys", "whether the lists are as long as each other and E passes at each place"),
            "pointwise_decides": ("pointwise_decides", "that two lists are compared rightly where their items are: a proof"),
            "vec_len": ("vec_len v", "how many items a `Vec` has"),
            "vec_capacity": ("vec_capacity v", "for how many items a `Vec` has room"),
        },
    ),
    (
        "Bytes and texts",
        [STD + "Prelude", STD + "Str", STD + "Str.Parse", STD + "Fmt", STD + "Char"],
        {
            "string_bytes": ("string_bytes s", "the bytes of a text of Rust"),
            "codes": ('codes "hi"', "the numbers of the characters of a text; of an ASCII text, its bytes"),
            "decimal": ("decimal n", "the digits that spell n, as bytes, without zeros in front (of a number of at most 64 digits)"),
            "digits_value": ("digits_value b ds", "the number that digits spell at the base b"),
            "is_ascii_digit": ("is_ascii_digit c", "whether the byte is one of 0 to 9"),
            "bytes_eq": ("bytes_eq a b", "whether two lists of bytes are equal"),
            "str_eq_ignore_ascii_case": ("str_eq_ignore_ascii_case a b", "whether two texts are equal but for capitals, those of A to Z"),
        },
    ),
    (
        "Devices",
        [STD + "Io.KnownBytes", STD + "Io.BufRead"],
        {
            "Appends": ("Appends old new bs", "where the old bytes are known, the new ones are they and then bs"),
            "ReadConsumes": ("ReadConsumes old new r buf", "where the old bytes are known: a read that answers n took the first n of them, which are those in buf, and none only at the end or with no room; one that failed took none"),
            "append_known": ("append_known o bs", "where the bytes are known, they and then bs; unknown ones stay so"),
            "prepend_known": ("prepend_known bs o", "where the bytes are known, bs and then they; unknown ones stay so"),
            "IsAtEnd": ("IsAtEnd o", "where the bytes that are left are known, there are none"),
            "take_through": ("take_through b bs", "the bytes up to the first b and with it, or all where there is none"),
        },
    ),
    (
        "Tables of keys and values",
        [STD + "Map"],
        {
            "lookup": ("lookup p es", "the value of the first pair whose key passes p, if there is one"),
            "lookup_entry": ("lookup_entry p es", "the first pair whose key passes p, if there is one"),
            "remove_entry": ("remove_entry p es", "the pairs without the first whose key passes p"),
        },
    ),
    (
        "How keys are compared",
        [STD + "Cmp", STD + "Hash"],
        {
            "IsEquivalence": ("IsEquivalence E", "each value passes E with itself, E does not go by the order, and two that pass with each other pass with the same values"),
            "IsPartialEquivalence": ("IsPartialEquivalence E", "E does not go by the order, and two that pass with a third pass with each other"),
            "partial_equiv_from_equiv": ("partial_equiv_from_equiv", "that the first of these gives the second: a proof"),
            "first_so": ("first_so", "that the first of two tests passes where both do: a proof"),
            "second_so": ("second_so", "that the second does: a proof"),
            "HashWrites": ("HashWrites", "the pieces of bytes that a key hands to a hasher, in order"),
            "slice": ("slice F xs", "the length of a list, and then what F hands on of each item"),
            "u8": ("u8 n", "one piece, a byte"),
            "u32": ("u32 n", "one piece, four bytes, the lowest first"),
        },
    ),
)


def known():
    """How each word is used and what it means, by its place and its name."""
    return {(place, name): line for _, places, words in GROUPS for name, line in words.items() for place in places}


def without_line(found):
    """The words, each with its place, that have no line here."""
    return sorted(set(found) - set(known()))


def shown(named):
    """The lines of these words, group by group: its heading, and how each is used with what it means."""
    for title, places, words in GROUPS:
        lines = [line for name, line in words.items() if any((place, name) in named for place in places)]
        if lines:
            yield title, lines
