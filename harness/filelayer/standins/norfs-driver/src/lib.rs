#![allow(async_fn_in_trait)]

pub mod medium;
