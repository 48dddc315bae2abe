//! Bytes as a call is given them, by what they are meant to be. Nothing is checked: the calls do that.

macro_rules! lent {
    ($($name:ident: $what:literal)*) => {
        $(
            #[doc = concat!("Bytes that are given as ", $what, ". The call that takes them says whether they are.")]
            ///
            /// Other bytes cannot be given in their place by mistake.
            #[derive(Clone, Copy, Debug, PartialEq, Eq, Hash)]
            pub struct $name<'a>(pub &'a [u8]);
        )*
    };
}

lent! {
    ImageBytes: "an image"
    JobBytes: "a job"
    IndexBytes: "an index"
    IndexesBytes: "indexes laid end to end, one for each view of an image"
    AnchorsBytes: "anchors"
    RangeBytes: "a range"
}
