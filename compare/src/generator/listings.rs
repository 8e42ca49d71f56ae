//! Inputs of the programs: a table file, a bias file, and a standard input.

use super::random::Random;
use super::random_biases::{accepted_bias, bias_bytes, refused_bias};
use super::random_tables::{refused_table, table_bytes};
use super::records::RecordValues;
use super::streams::record_stream;
use super::tables::TableValues;

/// What stands under the name of a file.
#[derive(Clone, Debug)]
pub enum FileInput {
    Missing,
    /// It cannot be read.
    Folder,
    Bytes(Vec<u8>),
}

impl FileInput {
    /// None where there is nothing to read.
    pub fn bytes(&self) -> Option<&[u8]> {
        match self {
            FileInput::Bytes(bytes) => Some(bytes),
            FileInput::Missing | FileInput::Folder => None,
        }
    }
}

#[derive(Clone, Debug)]
pub struct ListingInput {
    pub table: FileInput,
    pub bias: FileInput,
    pub input: Vec<u8>,
}

/// A file that is refused with 1.
fn unread(random: &mut Random) -> FileInput {
    random.pick(&[FileInput::Missing, FileInput::Folder])
}

/// Both are refused, with different numbers.
fn refused_files(random: &mut Random) -> [FileInput; 2] {
    let numbers = random.pick(&[[1, 2], [1, 3], [2, 1], [2, 3], [3, 1], [3, 2]]);
    let table = match numbers[0] {
        1 => unread(random),
        number => FileInput::Bytes(refused_table(random, number)),
    };
    let bias = match numbers[1] {
        1 => unread(random),
        number => FileInput::Bytes(refused_bias(random, number)),
    };
    [table, bias]
}

/// One of the files, or both, missing or wrong; some stay right.
fn troubled_files(random: &mut Random) -> [FileInput; 2] {
    let table = FileInput::Bytes(TableValues::bench().encode());
    let own = accepted_bias(random.next()).encode();
    let bias = FileInput::Bytes(own.clone());
    match random.below(12) {
        0 => [FileInput::Missing, bias],
        1 => [FileInput::Folder, bias],
        2 => [FileInput::Bytes(Vec::new()), bias],
        3 => [FileInput::Bytes(table_bytes(random.next())), bias],
        4 => [table, FileInput::Missing],
        5 => [table, FileInput::Folder],
        6 => [table, FileInput::Bytes(own[..8_450].to_vec())],
        7 => [table, FileInput::Bytes([&own[..], &[0]].concat())],
        8 => [table, FileInput::Bytes(refused_bias(random, 3))],
        9 => [table, FileInput::Bytes(bias_bytes(random.next()))],
        _ => refused_files(random),
    }
}

/// Two bench scans and troubled files.
fn troubled_input(random: &mut Random) -> ListingInput {
    let [table, bias] = troubled_files(random);
    let mut record = RecordValues::bench();
    let first = record.encode();
    record.number += 1;
    ListingInput {
        table,
        bias,
        input: [first, record.encode()].concat(),
    }
}

/// A stream under its own table and bias file, with or without a part of one more record.
fn stream_input(random: &mut Random) -> ListingInput {
    let stream = record_stream(random.next());
    let last = stream.records[stream.records.len() - 1].clone();
    let any = random.between(1, 4_647) as usize;
    let rest = random.pick(&[0, 0, 1, 4_629, 4_647, any]);
    let input = match random.below(12) {
        0 => Vec::new(),
        1 => last[..rest].to_vec(),
        _ => [&stream.records.concat(), &last[..rest]].concat(),
    };
    ListingInput {
        table: FileInput::Bytes(stream.table),
        bias: FileInput::Bytes(stream.bias),
        input,
    }
}

pub fn listing_input(seed: u64) -> ListingInput {
    let mut random = Random::new(seed);
    if random.below(5) < 3 {
        troubled_input(&mut random)
    } else {
        stream_input(&mut random)
    }
}
