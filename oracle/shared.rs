// The modules of the oracle that the other programs here and those of bench/ stand on, none of which uses all that they hold.
#[allow(dead_code)]
mod blocks;
#[allow(dead_code)]
mod call;
#[allow(dead_code)]
mod calls;
#[allow(dead_code)]
mod forms;
#[allow(dead_code)]
mod job;
#[path = "../target/oracle/outline.rs"]
#[allow(dead_code)]
mod outline;
#[allow(dead_code)]
mod paper;
#[path = "../target/oracle/stage.rs"]
#[allow(dead_code)]
mod stage;
#[allow(dead_code)]
mod standin;
#[allow(dead_code)]
mod traced;
