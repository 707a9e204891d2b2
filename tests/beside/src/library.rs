//! The library's C functions over a record, and those that load, certify and view
//! an image, as `include/jennydusk.h` declares them. This is the only module with
//! unsafe code, and the calls are all of it.

#![allow(unsafe_code)]

use crate::calls::{Calls, Memory, Viewer};
use interpreter::generator::hex::HexImage;

#[rustfmt::skip]
#[link(name = "jennydusk", kind = "static")]
unsafe extern "C" {
    fn jennydusk_load(text: *const u8, text_length: usize, words: *mut u32, words_length: usize, labels: *mut u8, labels_length: usize, record: *mut u64, record_length: usize) -> u64;
    fn jennydusk_load_hex(text: *const u8, text_length: usize, hex: *const u8, hex_length: usize, label: u8, words: *mut u32, words_length: usize, labels: *mut u8, labels_length: usize, record: *mut u64, record_length: usize, line: *mut u64) -> u64;
    fn jennydusk_step(record: *mut u64, record_length: usize, words: *mut u32, words_length: usize, labels: *mut u8, labels_length: usize) -> u64;
    fn jennydusk_run(record: *mut u64, record_length: usize, words: *mut u32, words_length: usize, labels: *mut u8, labels_length: usize) -> u64;
    fn jennydusk_run_to(record: *mut u64, record_length: usize, words: *mut u32, words_length: usize, labels: *mut u8, labels_length: usize, tick: u64) -> u64;
    fn jennydusk_print(record: *const u64, record_length: usize, words: *const u32, words_length: usize, labels: *const u8, labels_length: usize, output: *mut u8, output_length: usize) -> u64;
    fn jennydusk_print_for(record: *const u64, record_length: usize, words: *const u32, words_length: usize, labels: *const u8, labels_length: usize, label: u8, output: *mut u8, output_length: usize) -> u64;
    fn jennydusk_view(text: *const u8, text_length: usize, label: u8, tick: u64, words: *mut u32, words_length: usize, labels: *mut u8, labels_length: usize, output: *mut u8, output_length: usize) -> u64;
    fn jennydusk_certify(label: u8, text: *const u8, text_length: usize, words: *mut u32, words_length: usize, labels: *mut u8, labels_length: usize, certificate: *mut u64, certificate_length: usize) -> u64;
}

/// The compiled library. In each call every pointer is that of a slice of the
/// length beside it, and slices that may be changed overlap no other.
pub struct Library;

#[rustfmt::skip]
impl Calls for Library {
    fn load(&self, text: &[u8], words: &mut [u32], labels: &mut [u8], record: &mut [u64]) -> u64 {
        unsafe { jennydusk_load(text.as_ptr(), text.len(), words.as_mut_ptr(), words.len(), labels.as_mut_ptr(), labels.len(), record.as_mut_ptr(), record.len()) }
    }

    fn load_hex(&self, image: &HexImage, memory: Memory, record: &mut [u64], line: &mut u64) -> u64 {
        let (HexImage { text, hex, label }, Memory { words, labels }) = (image, memory);
        unsafe { jennydusk_load_hex(text.as_ptr(), text.len(), hex.as_ptr(), hex.len(), label.0, words.as_mut_ptr(), words.len(), labels.as_mut_ptr(), labels.len(), record.as_mut_ptr(), record.len(), line) }
    }

    fn step(&self, record: &mut [u64], words: &mut [u32], labels: &mut [u8]) -> u64 {
        unsafe { jennydusk_step(record.as_mut_ptr(), record.len(), words.as_mut_ptr(), words.len(), labels.as_mut_ptr(), labels.len()) }
    }

    fn run(&self, record: &mut [u64], words: &mut [u32], labels: &mut [u8]) -> u64 {
        unsafe { jennydusk_run(record.as_mut_ptr(), record.len(), words.as_mut_ptr(), words.len(), labels.as_mut_ptr(), labels.len()) }
    }

    fn run_to(&self, record: &mut [u64], words: &mut [u32], labels: &mut [u8], tick: u64) -> u64 {
        unsafe { jennydusk_run_to(record.as_mut_ptr(), record.len(), words.as_mut_ptr(), words.len(), labels.as_mut_ptr(), labels.len(), tick) }
    }

    fn print(&self, record: &[u64], words: &[u32], labels: &[u8], output: &mut [u8]) -> u64 {
        unsafe { jennydusk_print(record.as_ptr(), record.len(), words.as_ptr(), words.len(), labels.as_ptr(), labels.len(), output.as_mut_ptr(), output.len()) }
    }

    fn print_for(&self, record: &[u64], words: &[u32], labels: &[u8], label: u8, output: &mut [u8]) -> u64 {
        unsafe { jennydusk_print_for(record.as_ptr(), record.len(), words.as_ptr(), words.len(), labels.as_ptr(), labels.len(), label, output.as_mut_ptr(), output.len()) }
    }

    fn view(&self, text: &[u8], viewer: Viewer, memory: Memory, output: &mut [u8]) -> u64 {
        let Memory { words, labels } = memory;
        unsafe { jennydusk_view(text.as_ptr(), text.len(), viewer.label.0, viewer.tick, words.as_mut_ptr(), words.len(), labels.as_mut_ptr(), labels.len(), output.as_mut_ptr(), output.len()) }
    }

    fn certify(&self, label: u8, text: &[u8], words: &mut [u32], labels: &mut [u8], certificate: &mut [u64]) -> u64 {
        unsafe { jennydusk_certify(label, text.as_ptr(), text.len(), words.as_mut_ptr(), words.len(), labels.as_mut_ptr(), labels.len(), certificate.as_mut_ptr(), certificate.len()) }
    }
}
