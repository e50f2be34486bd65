//! Writes the list. All numbers are little-endian and nothing is padded.

use scenarios::subject::Answer;
use scenarios::{Params, Scenario, Step};

pub const MAGIC: &[u8; 8] = b"GASKLIST";
pub const END_OF_SCENARIO: u8 = 0;
pub const BEGIN: u8 = 1;
pub const ADD: u8 = 2;
pub const BUILD: u8 = 3;
pub const MARK: u8 = 4;
pub const SEARCH: u8 = 5;
pub const END_OF_LIST: u8 = 255;

pub fn list(entries: &[(Scenario, Vec<Answer>)]) -> Vec<u8> {
    let mut out = MAGIC.to_vec();
    put32(&mut out, entries.len() as u32);
    for (scenario, answers) in entries {
        put_scenario(&mut out, scenario, answers);
    }
    out.push(END_OF_LIST);
    out
}

pub fn put_scenario(out: &mut Vec<u8>, scenario: &Scenario, answers: &[Answer]) {
    put_begin(out, &scenario.params);
    for (step, answer) in scenario.steps.iter().zip(answers) {
        put_step(out, step, answer);
    }
    out.push(END_OF_SCENARIO);
}

fn put_begin(out: &mut Vec<u8>, params: &Params) {
    out.push(BEGIN);
    put16(out, params.dimension);
    put16(out, params.capacity);
    put16(out, params.n_neighbor);
    put16(out, params.n_neighbor0);
    put16(out, params.max_level);
    put16(out, params.ef_build);
    put16(out, params.ef_search);
    put16(out, params.has_deletion as usize);
}

fn put_step(out: &mut Vec<u8>, step: &Step, answer: &Answer) {
    match (step, answer) {
        (Step::Add { vector, level }, _) => {
            out.push(ADD);
            out.push(*level as u8);
            put_vector(out, vector);
        }
        (Step::Build { metric }, Answer::Links(links)) => {
            out.push(BUILD);
            put16(out, *metric as usize);
            put_links(out, links);
        }
        (Step::Mark { id }, _) => {
            out.push(MARK);
            put16(out, *id);
        }
        (Step::Search { query, k }, Answer::Found(found)) => {
            out.push(SEARCH);
            put16(out, *k);
            put_vector(out, query);
            put_found(out, found);
        }
        _ => panic!("an answer of another kind than its step"),
    }
}

fn put_links(out: &mut Vec<u8>, links: &[Vec<Vec<usize>>]) {
    put16(out, links.len());
    for lists in links {
        out.push((lists.len() - 1) as u8);
        for list in lists {
            put16(out, list.len());
            list.iter().for_each(|id| put16(out, *id));
        }
    }
}

fn put_found(out: &mut Vec<u8>, found: &[(usize, u32)]) {
    put16(out, found.len());
    for (id, bits) in found {
        put16(out, *id);
        put32(out, *bits);
    }
}

fn put_vector(out: &mut Vec<u8>, vector: &[f32]) {
    vector.iter().for_each(|c| put32(out, c.to_bits()));
}

fn put16(out: &mut Vec<u8>, number: usize) {
    let number = u16::try_from(number).expect("a number that u16 holds");
    out.extend_from_slice(&number.to_le_bytes());
}

fn put32(out: &mut Vec<u8>, number: u32) {
    out.extend_from_slice(&number.to_le_bytes());
}
