//! `explain`: what a refusal means and what a user can do.

use sangueko::Refusal;

use crate::failure::Failure;

/// The commands that can end with it, and what to do.
fn advice(refusal: Refusal) -> (&'static str, &'static str) {
    match refusal {
        Refusal::WrongLength => (
            "every command",
            "`sangueko check FOLDER` names the file and the length that it should have. The lengths are chosen once, by `new`: \
             put the file back from a copy. If `new` was refused: it takes 1 to 65,536 blocks, at most as many \
             reserved ones, and at most 1,048,575 places in a book. A card has 48 bytes. Older stores, whose cards have 32, are not \
             converted: copy their files out with the tool that they were made with.",
        ),
        Refusal::BrokenRule => (
            "every command but new",
            "`sangueko check FOLDER` names the rule, the record and its bytes. No list of calls leads there: another program or \
             the disk has changed the files. Put the folder back from a copy. An older store, whose cards have 32 bytes and not \
             48, is no damaged one, but it is not converted: copy its files out with the tool that it was made with.",
        ),
        Refusal::NoCard => (
            "write, batch, grow, read, data, flags",
            "`sangueko show FOLDER` lists the files; `sangueko enter FOLDER OBJECT` makes a new one.",
        ),
        Refusal::CardExists => (
            "enter",
            "Write to the file as it is, or choose another number; `sangueko show FOLDER` lists those in use.",
        ),
        Refusal::PastLimit => (
            "write, batch, grow",
            "Choose a smaller --at, OFFSET or SIZE.",
        ),
        Refusal::BelowSize => (
            "grow",
            "Files do not get shorter. To keep less of one, read the part and write it to a new file.",
        ),
        Refusal::BadTime => (
            "enter, write, batch, grow",
            "Leave --time away to use the clock's, or give a smaller one.",
        ),
        Refusal::NoCardPlace => (
            "enter",
            "The number of files was chosen by `new`. Make a store with more --cards and copy the files over \
             with read and write.",
        ),
        Refusal::NoChecksum => (
            "read, flags, check, and writes and grows that keep a part of the unit",
            "No list of calls leads there: something has changed the files. `sangueko check FOLDER` lists the units. A write \
             over the whole unit does not read it and makes it good; else restore from a copy.",
        ),
        Refusal::NotBacked => (
            "read, flags, check, and writes and grows that keep a part of the unit",
            "As with 9: `sangueko check FOLDER` lists the units; write the whole unit again, or restore from a copy.",
        ),
        Refusal::NonzeroPastEnd => (
            "read, flags, check, and writes and grows that keep a part of the unit",
            "As with 9: `sangueko check FOLDER` names the byte; write the whole unit again, or restore from a copy.",
        ),
        Refusal::ChecksumDiffers => (
            "read, flags, check, and writes and grows that keep a part of the unit",
            "Bytes of the file have changed on the disk. `sangueko check FOLDER` lists the units; write the whole unit \
             again, or restore from a copy. Other files and units are not touched by it.",
        ),
        Refusal::NoSpace => (
            "write, with --archive sooner than without, batch, grow",
            "`sangueko settle FOLDER` lets retired blocks go; `sangueko show FOLDER` tells how many there are. If that is too few, make a larger \
             store and copy the files over with read and write. Where the free blocks lie does not matter: single ones are taken \
             where not enough are side by side. `write --archive` can take 16 blocks where one changes: without --archive the same \
             write may be accepted. What a write stored in earlier calls, or a batch in earlier \
             writes, stays stored, and the message says how much.",
        ),
        Refusal::CountDisagrees => (
            "write, batch, grow",
            "The card's count is wrong, and no list of calls leads there. Restore from a copy, or read the file and \
             write it to a new store: reads do not use the count.",
        ),
        Refusal::NoGroupPlace => (
            "write, batch",
            "Each 16 MiB of a file that hold data take a place. Make a store with more --groups and copy the files over.",
        ),
        Refusal::NoExtentPlace => (
            "write, batch, grow",
            "The files lie in too many pieces for the book. Settle, then write files again in one go, or make a store with more \
             --extents; as many as there are blocks are always enough. Settled blocks make longer gaps, and the new blocks of a unit of \
             65,536 bytes lie side by side wherever a gap is long enough: the unit is then in four pieces at most, and in two after \
             `write --archive`. Where no gap is, each new block can be a piece.",
        ),
        Refusal::BadReads => (
            "no command, since the tool makes its lists itself; programs that call the library",
            "Cut a longer list into several calls of 64 reads, and lend an output that is at least as long as the \
             lengths together. `sangueko read FOLDER OBJECT --ranges-from FILE` does that for any number of ranges.",
        ),
        Refusal::BadBatch => (
            "no command, since the tool makes its lists itself; programs that call the library",
            "Cut a longer list into several calls of 64 writes, and what has over 1,048,576 bytes into several writes; lend the \
             bytes of all writes of the call, one behind the other, and no others. `sangueko batch FOLDER LIST` makes the calls for any \
             number of writes.",
        ),
        Refusal::BadRange => (
            "data, where FIRST and UNITS add up to more than 18,446,744,073,709,551,615; programs that call the library",
            "Leave UNITS away to look at all units to the file's end. A program lends 16 bytes of output for each stretch: half as many \
             as the range has units, rounded up, or 128 for each group of the file are always enough. `sangueko data FOLDER OBJECT` \
             lends so many.",
        ),
    }
}

pub fn explain(number: u32) -> Result<String, Failure> {
    let refusal = Refusal::of(number).ok_or_else(|| {
        Failure::Usage(format!(
            "there is no refusal {number}: they have the numbers 1 to {}",
            Refusal::ALL.len()
        ))
    })?;
    let (commands, advice) = advice(refusal);
    Ok(format!(
        "refusal {number}: {refusal}.\n\nWhere it comes: {commands}.\nWhat to do: {advice}\n\n\
         The refused call changed nothing. A batch stops at the write that is refused, which changed nothing; those before it stay.\n"
    ))
}
