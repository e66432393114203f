//! Two lookups of one session that nobody may put side by side, by the library.
use linkage::{Engine, Product, Refusal};

fn ask(engine: &Engine, user: usize, flow: usize, database: usize) {
    match engine.read(Product::Server, user, 0, flow, database) {
        Ok(()) => println!("user {user}, flow {flow}: granted"),
        Err(refusal) => println!("user {user}, flow {flow}: {refusal}"),
    }
}

fn main() -> Result<(), Refusal> {
    let mut engine = Engine::new();
    // User 1 holds roles 0 and 1, user 2 role 1 alone. Role 0 reads database 0, role 1 database 1.
    engine.assign(1, 0)?;
    engine.assign(1, 1)?;
    engine.assign(2, 1)?;
    engine.permit(0, 0)?;
    engine.permit(1, 1)?;
    engine.open(Product::Server, 0)?;
    // A flow of each. For the second, ask which roles conflict, and deny role 0.
    engine.add(Product::Server, 0, 0, 0)?;
    let found = engine.conflicting(Product::Server, 0, 1)?;
    engine.add(Product::Server, 0, 1, found & 1)?;
    println!("conflicting roles: {found:x}");
    ask(&engine, 1, 0, 0);
    ask(&engine, 1, 1, 1);
    ask(&engine, 2, 1, 1);
    Ok(())
}
