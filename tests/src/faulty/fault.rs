//! The faults of the wrong variants, one name for each.

/// What is wrong.
#[derive(Clone, Copy, Debug, PartialEq, Eq)]
pub enum Fault {
    /// Answers 8 with 63 present.
    FullAt63,
    /// Orders the log by key alone, so that a need may follow its user.
    KeyAlone,
    /// Empty leaves the bytes past the setpoints.
    TailNotCleared,
    /// A repeat writes a step that it does not count.
    RepeatWrites,
    /// Writes the right steps, and counts one execution too many where there was an undo.
    CountsOff,
    /// Undoes and executes the whole log each time.
    UndoesEverything,
    /// Lets a new delta wait as long as one is held that does not need it.
    WaitsBehindHeld,
    /// Undoes an addition by subtracting.
    Subtracts,
    /// Writes a step buffer though it refuses by 7.
    RefusalWrites,
    /// Clears the step buffer past the steps.
    StepsCleared,
    /// With 64 present, answers 8 where 7 applies.
    FullBeforeConflict,
    /// Answers 6 where 5 applies too.
    RangeBeforeDependencies,
    /// Does not look at the bytes past the used part.
    TailUnchecked,
    /// Does not look at the setpoints of the image.
    SetpointsUnchecked,
    /// Compose clears the buffer past the message.
    ComposeClears,
    /// Compose takes the next group always.
    ComposeNextGroup,
    /// Compose answers 11 at eight dependencies.
    ComposeAtEight,
    /// Rebuilds on the first delivery, and only echoes later: no step, and the image as it was.
    EchoesLater,
    /// Holds every delta.
    HoldsAll,
    /// Leaves the image as it was.
    LeavesImage,
    /// Has the same log always, that of no deltas.
    SameLog,
    /// Refuses every delta.
    RefusesAll,
    /// Answers 12 for the log's last place.
    LastPlaceRefused,
    /// Goes on to the held ones past the log.
    HeldAsLog,
    /// Counts the offset of a message from where the messages begin.
    OffsetFromMessages,
    /// Takes tag 64 for tag 0.
    TagWraps,
    /// Answers a setpoint of a buffer that is no image.
    SetpointUnjudged,
    /// Answers a value below zero as its distance from zero.
    SignLost,
    /// A step lists before for after and after for before.
    BeforeForAfter,
    /// An undo lists the first command first.
    UndoFirstFirst,
    /// An undo takes an addition's value off again, instead of restoring.
    UndoSubtracts,
    /// A step counts eight pairs always.
    CountsEight,
    /// A step leaves the bytes of unused pairs.
    UnusedNotCleared,
    /// A command that leaves its tag's value has no pair.
    StillLeftOut,
    /// Takes a step buffer of 10,159 bytes.
    ShortRoom,
    /// Compares the lower 16 bits of priorities.
    PriorityOf16Bits,
    /// Compares the lower 16 bits of blocks.
    BlockOf16Bits,
    /// Compares the lower 24 bits of groups.
    GroupOf24Bits,
    /// Beside eight dependencies the effective block of the predecessor does not count.
    EightHidePredecessor,
    /// Takes a message for a repeat whose first 140 bytes are equal.
    First140Compared,
    /// A need counts as placed where its line has a floor, whatever its number.
    NeedsByLineAlone,
    /// A need at its floor does not count as placed, one below it does.
    NeedAtFloorMissing,
    /// A need below its floor does not count as placed, one at it does.
    NeedBelowFloorMissing,
    /// An effective block may be below the greatest purged one.
    PurgedBlockUncounted,
    /// The values of an image are those of its log run from zero.
    BaseUnused,
    /// The pairs of steps are those of the log run from zero.
    BaseUnusedInSteps,
    /// A delivery at or below its floor joins the set.
    PurgedJoins,
    /// A delivery of a line with a floor is taken for purged, whatever its number.
    DeliveryByLineAlone,
    /// Answers 7 to a delivery at or below its floor.
    ConflictBelowFloor,
    /// With 64 present, answers 8 to a delivery at or below its floor.
    FullBelowFloor,
    /// Compose does not count the line's floor.
    NumberWithoutFloor,
    /// Compose takes group 1 on an empty log, whatever was purged.
    GroupOneOnEmptied,
    /// Compose does not count the purged group where there is a log.
    PurgedGroupUncounted,
    /// Compose does not count the purged block.
    BlockOfLogAlone,
    /// Answers a setpoint of an image with a message at or below a floor.
    MessageBelowFloorPasses,
    /// The same of one with two floors of one line.
    FloorTwicePasses,
    /// The same of one whose floors are in another order.
    FloorsUnordered,
    /// The same of one with a floor of number 0.
    FloorZeroPasses,
    /// The same of one with more than 32 floors.
    ThirtyThreeFloors,
    /// The same of one with a base value and no floor.
    BaseWithoutFloor,
    /// The same of one with a purged block and no floor.
    BlockWithoutFloor,
    /// The same of one with a purged group and no floor.
    GroupWithoutFloor,
    /// The same of one with a base value out of range.
    BaseOutOfRangePasses,
    /// The same of one whose purged block is above the limit.
    PurgedBlockAboveLimit,
    /// The same of one whose purged group is above the limit.
    PurgedGroupAboveLimit,
    /// The same of one whose header bytes 24-31 are not zero.
    HeaderEndUnchecked,
    /// The reader takes small letters.
    SmallLettersRead,
    /// The reader takes G, as a 0.
    LetterG,
    /// The reader takes a colon, which follows 9, for a digit of 10.
    ColonRead,
    /// The reader does not look at the places of the commas.
    CommaUnchecked,
    /// The reader takes a comma after the last sequence.
    CommaLast,
    /// The reader takes nine sequences.
    NineRead,
    /// The writer takes nine sequences.
    NineWritten,
    /// The reader answers 14 where 13 applies too.
    ZeroBeforeForm,
    /// The reader takes a buffer of 95 bytes.
    RoomOf95,
    /// The writer takes a buffer of 198 bytes.
    RoomOf198,
    /// Reader and writer answer 13 where 1 applies too.
    FormBeforeSize,
    /// Reader and writer exchange the digits of each byte, so that a round trip fits.
    DigitsSwapped,
    /// The reader looks for 0000 in the last sequence alone.
    LastNumberOnly,
    /// The writer does not look for 0000.
    WritesZero,
    /// The writer ends its text by a NUL, which it does not count.
    NulWritten,
    /// The writer joins by semicolons.
    Semicolons,
    /// The writer writes small letters.
    SmallLettersWritten,
    /// The reader answers how many sequences there are.
    CountsSequences,
    /// The reader writes the sequences that it refuses by 14.
    ReadsThenRefuses,
    /// Reader and writer clear the bytes behind what they write.
    RestCleared,
    /// The writer sorts the sequences.
    Ascending,
    /// The reader refuses a sequence that stands twice.
    RepeatsRefused,
    /// Purges one more than asked for, where there is one.
    PurgeOneMore,
    /// Purges one less than asked for.
    PurgeOneLess,
    /// Takes the lower 8 bits of K.
    PurgeOf8Bits,
    /// Takes the lower 16 bits of K.
    PurgeOf16Bits,
    /// Answers 15 where K is 0.
    PurgeOfNoneRefused,
    /// Answers 15 where K is L.
    PurgeOfAllRefused,
    /// Purges the whole log where K exceeds it.
    PurgeOfAllThereIs,
    /// Answers 16 where K exceeds L and the whole log would leave over 32 floors.
    FloorsBeforeCount,
    /// Answers 15 of a buffer that is no image and counts fewer than K.
    CountBeforeImage,
    /// Answers 16 where 32 floors would result.
    SixteenAt32,
    /// Answers 16 by the number of messages, whatever their lines.
    FloorsOfMessages,
    /// Purges as many as leave 32 floors where K would leave more.
    PurgeOfWhatFits,
    /// The same, and answers 16.
    PurgeRefusalWrites,
    /// A line that has a floor keeps its number.
    FloorNotRaised,
    /// A floor has the lowest number that was purged of its line.
    FloorOfFirst,
    /// A floor is the next number of its line.
    FloorOneHigh,
    /// The floors are those of this purge alone.
    OldFloorsForgotten,
    /// New floors stand behind the old ones, in the order of the log.
    FloorsAppended,
    /// A line that has a floor gets a second one.
    FloorTwice,
    /// The base values stay as they were.
    BaseKept,
    /// The base values are those of the purged deltas run from zero.
    BaseFromZero,
    /// The base values are those of the whole log.
    BaseOfWholeLog,
    /// The purged block stays as it was.
    PurgedBlockKept,
    /// The purged block is the own block of the last purged delta.
    PurgedBlockOfLast,
    /// The purged group stays as it was.
    PurgedGroupKept,
    /// The purged group is that of the last purged delta.
    PurgedGroupOfLast,
    /// The rest of the messages stay where they were.
    MessagesNotMoved,
    /// The bytes past the used part stay as they were.
    OldBytesStay,
    /// The setpoints are those of the rest run from zero.
    SetpointsFromZero,
    /// Drops the held deltas too.
    HeldPurgedToo,
    /// Drops the last of the log.
    PurgesLast,
    /// Drops those of the lowest sequences.
    PurgesBySequence,
    /// Deltas of equal block, priority and group stand as they came: as in the log before, and what
    /// joins it behind.
    TiesByArrival,
    /// The same the other way round: what joins the log goes first, and the log before is read from
    /// its end.
    TiesLatestFirst,
    /// The same by sequence, the higher first where the number of deltas is odd.
    TiesByCount,
    /// The priority in the key is the greatest of those that need the delta too, in its effective block.
    PriorityHandedDown,
    /// The effective block is the greatest of those that need the delta too.
    BlockHandedDown,
    /// The effective block counts the blocks of held deltas that need the delta.
    BlockOfHeld,
}

/// Every fault. Those that the paper names as programs that come close are among them.
pub const FAULTS: [Fault; 126] = [
    Fault::FullAt63,
    Fault::KeyAlone,
    Fault::TailNotCleared,
    Fault::RepeatWrites,
    Fault::CountsOff,
    Fault::UndoesEverything,
    Fault::WaitsBehindHeld,
    Fault::Subtracts,
    Fault::RefusalWrites,
    Fault::StepsCleared,
    Fault::FullBeforeConflict,
    Fault::RangeBeforeDependencies,
    Fault::TailUnchecked,
    Fault::SetpointsUnchecked,
    Fault::ComposeClears,
    Fault::ComposeNextGroup,
    Fault::ComposeAtEight,
    Fault::EchoesLater,
    Fault::HoldsAll,
    Fault::LeavesImage,
    Fault::SameLog,
    Fault::RefusesAll,
    Fault::LastPlaceRefused,
    Fault::HeldAsLog,
    Fault::OffsetFromMessages,
    Fault::TagWraps,
    Fault::SetpointUnjudged,
    Fault::SignLost,
    Fault::BeforeForAfter,
    Fault::UndoFirstFirst,
    Fault::UndoSubtracts,
    Fault::CountsEight,
    Fault::UnusedNotCleared,
    Fault::StillLeftOut,
    Fault::ShortRoom,
    Fault::PriorityOf16Bits,
    Fault::BlockOf16Bits,
    Fault::GroupOf24Bits,
    Fault::EightHidePredecessor,
    Fault::First140Compared,
    Fault::NeedsByLineAlone,
    Fault::NeedAtFloorMissing,
    Fault::NeedBelowFloorMissing,
    Fault::PurgedBlockUncounted,
    Fault::BaseUnused,
    Fault::BaseUnusedInSteps,
    Fault::PurgedJoins,
    Fault::DeliveryByLineAlone,
    Fault::ConflictBelowFloor,
    Fault::FullBelowFloor,
    Fault::NumberWithoutFloor,
    Fault::GroupOneOnEmptied,
    Fault::PurgedGroupUncounted,
    Fault::BlockOfLogAlone,
    Fault::MessageBelowFloorPasses,
    Fault::FloorTwicePasses,
    Fault::FloorsUnordered,
    Fault::FloorZeroPasses,
    Fault::ThirtyThreeFloors,
    Fault::BaseWithoutFloor,
    Fault::BlockWithoutFloor,
    Fault::GroupWithoutFloor,
    Fault::BaseOutOfRangePasses,
    Fault::PurgedBlockAboveLimit,
    Fault::PurgedGroupAboveLimit,
    Fault::HeaderEndUnchecked,
    Fault::SmallLettersRead,
    Fault::LetterG,
    Fault::ColonRead,
    Fault::CommaUnchecked,
    Fault::CommaLast,
    Fault::NineRead,
    Fault::NineWritten,
    Fault::ZeroBeforeForm,
    Fault::RoomOf95,
    Fault::RoomOf198,
    Fault::FormBeforeSize,
    Fault::DigitsSwapped,
    Fault::LastNumberOnly,
    Fault::WritesZero,
    Fault::NulWritten,
    Fault::Semicolons,
    Fault::SmallLettersWritten,
    Fault::CountsSequences,
    Fault::ReadsThenRefuses,
    Fault::RestCleared,
    Fault::Ascending,
    Fault::RepeatsRefused,
    Fault::PurgeOneMore,
    Fault::PurgeOneLess,
    Fault::PurgeOf8Bits,
    Fault::PurgeOf16Bits,
    Fault::PurgeOfNoneRefused,
    Fault::PurgeOfAllRefused,
    Fault::PurgeOfAllThereIs,
    Fault::FloorsBeforeCount,
    Fault::CountBeforeImage,
    Fault::SixteenAt32,
    Fault::FloorsOfMessages,
    Fault::PurgeOfWhatFits,
    Fault::PurgeRefusalWrites,
    Fault::FloorNotRaised,
    Fault::FloorOfFirst,
    Fault::FloorOneHigh,
    Fault::OldFloorsForgotten,
    Fault::FloorsAppended,
    Fault::FloorTwice,
    Fault::BaseKept,
    Fault::BaseFromZero,
    Fault::BaseOfWholeLog,
    Fault::PurgedBlockKept,
    Fault::PurgedBlockOfLast,
    Fault::PurgedGroupKept,
    Fault::PurgedGroupOfLast,
    Fault::MessagesNotMoved,
    Fault::OldBytesStay,
    Fault::SetpointsFromZero,
    Fault::HeldPurgedToo,
    Fault::PurgesLast,
    Fault::PurgesBySequence,
    Fault::TiesByArrival,
    Fault::TiesLatestFirst,
    Fault::TiesByCount,
    Fault::PriorityHandedDown,
    Fault::BlockHandedDown,
    Fault::BlockOfHeld,
];
