//! A program with all eight published blocks, for tools/code_bytes: a start, an emit and an update of the one that the number of
//! its arguments names, with settings of zero.
use comparison::Kind;
use oce_blocks::{Ctx, NoopDiagnostics, access};
use oce_model::{ParamTable, Value};

fn main() {
    let kind = Kind::ALL[std::env::args().count() % 8];
    let (block, mut region) = (access::block(kind, &[0; 13]), [0; 4200]);
    let (inputs, mut output) = ([Value::Real(0.0); 3], Value::Boolean(false));
    let ctx = Ctx::new(0.0, &NoopDiagnostics);
    block.init_state(&mut region, &ParamTable);
    block.emit_from_state(&ctx, &inputs, &region, &mut |_, y| output = y);
    block.update_state(&ctx, &inputs, &mut region);
    std::process::exit(i32::from(output == Value::Boolean(true)));
}
