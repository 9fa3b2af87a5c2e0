//! The ordinary device against document 01's worked examples and document 02's landed requests, and the ledger against
//! histories worked out by hand.

mod bench;
mod bench_sheet;
mod block_place;
mod commands;
mod control_byte;
mod descriptors;
mod history;
mod inquiry_length;
mod ledger;
mod ledger_faults;
mod ledger_writes;
mod lent;
mod medium_size;
mod page_records;
mod product_pages;
mod records;
mod refused_block;
mod sense_data;
mod sense_drop;
mod sense_records;
mod several_units;
mod shown;
mod shown_ledger;
mod shown_reads;
mod shown_replies;
mod switch;
mod switch_records;
mod switch_writes;
mod unit_isolation;
mod unit_making;
mod unit_media;
mod unit_senses;
mod unit_switches;
mod unit_tables;
