use std::fmt;

/// Why a call was not taken: a number and a sentence. A refused call has changed nothing; of a round the steps before the refused one remain done.
#[derive(Clone, Copy, PartialEq, Eq, Hash, PartialOrd, Ord)]
pub struct Refusal {
    number: usize,
    sentence: &'static str,
}

impl Refusal {
    /// The refusal of an answer, where its number is not 0.
    pub(crate) fn of(number: usize) -> Result<(), Refusal> {
        if number == 0 {
            Ok(())
        } else {
            Err(Refusal::numbered(number))
        }
    }

    /// One of the library's.
    pub(crate) fn numbered(number: usize) -> Refusal {
        Refusal { number, sentence: Refusal::sentence_of(number).unwrap_or("a number that this crate has no sentence for") }
    }

    /// The system has no memory for a room. The library refuses one that is too short with this number, and so include/shofrakin_live.h one that is not there.
    pub(crate) const NO_MEMORY: Refusal = Refusal { number: 8, sentence: "no memory holds a room of that size" };

    /// The number, as in include/shofrakin.h.
    pub fn number(self) -> usize {
        self.number
    }

    /// What it says, without the number and without a full stop.
    pub fn sentence(self) -> &'static str {
        self.sentence
    }

    /// What a number says; nothing for one that is no refusal. The sentences are those of include/shofrakin_live.h.
    pub fn sentence_of(number: usize) -> Option<&'static str> {
        Some(match number {
            1 => "an option is outside its range",
            2 => "the bytes end before an item does",
            3 => "the mark, a token or a size byte is wrong",
            4 => "a dimension is outside its limits",
            5 => "dimensions disagree",
            6 => "a number is not finite, or a weight or inverse variance is not above 0",
            7 => "the CMVN text breaks its form",
            8 => "a lent room is too short",
            9 => "the silence settings are outside their limits",
            10 => "the record was made by no call, or for rooms of other lengths",
            11 => "the frame's length is not the model's base dimension",
            12 => "a number of the frame is not finite",
            13 => "1,000,000,000 frames are in",
            14 => "the frame room is full",
            15 => "the row room is full",
            16 => "the change lists differ in length, or are longer than 384",
            17 => "a change names a frame of 1,000,000,000 or more, or its weight is not finite",
            18 => "a change names a frame that is no longer kept",
            19 => "there is no room for that many waiting changes",
            20 => "the output's length is not the i-vector dimension",
            21 => "the frame is not ready",
            22 => "the frame is above the highest changed one",
            23 => "more decoder frames than the silence table has, or a frame number too high",
            24 => "the silence lists differ in length, or are too short for the answer",
            25 => "a settings text is not ASCII, or longer than 65,536 bytes",
            26 => "the output is shorter than the model's files",
            27 => "no vector is enrolled, or more than 32 are",
            28 => "a vector's length is not the dimension",
            29 => "a number of a vector or the limit is not finite, or the limit is below 0",
            30 => "a change names a frame below one that a forget named",
            31 => "the window is outside 1 to 1,000",
            32 => "the window is above the longest, and older rows are gone",
            33 => "a seed or a size outside its limits, a list too short for what is drawn, or input that can't be read",
            _ => return None,
        })
    }
}

impl fmt::Display for Refusal {
    fn fmt(&self, f: &mut fmt::Formatter) -> fmt::Result {
        write!(f, "refused, {}: {}", self.number, self.sentence)
    }
}

impl fmt::Debug for Refusal {
    fn fmt(&self, f: &mut fmt::Formatter) -> fmt::Result {
        fmt::Display::fmt(self, f)
    }
}

impl std::error::Error for Refusal {}
