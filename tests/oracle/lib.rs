//! What the listing program must print and the calls on a watch must answer, found by set-building from document 01 and
//! source document 003, section 2.3.2. At every clock mark and at the end all recognitions are enumerated anew: there
//! is no incremental step. Only `any_watch` goes by the rows of a table, for tables that no history made. Instants and
//! lengths are whole numbers of tenths of a millisecond (request N11); only `listing` has to do with their spelling: it
//! reads them by `common::paper` and spells them itself. Nothing here uses proved code.

pub mod any_watch;
pub mod conditions;
pub mod consistency;
pub mod history;
pub mod layout;
pub mod listing;
pub mod model;
pub mod recognitions;
