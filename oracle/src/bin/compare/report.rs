//! A difference, reported with its smallest input.
use crate::call::{hexadecimal, Question};
use crate::commits::list_again;
use crate::comparison::{find, Comparison, Difference};
use crate::lent::Lent;
use crate::shrink::smallest;
use crate::wrong::Wrong;
use oracle::answers::commits::Case;
use std::panic::{catch_unwind, AssertUnwindSafe};
use std::sync::atomic::AtomicUsize;

pub fn report(difference: Difference, wrong: Option<Wrong>) {
    match difference {
        Difference::Call(question) => report_call(*question, wrong),
        Difference::List(steps, what) => report_list(steps, &what),
        Difference::Panic(message) => {
            println!("difference: a panic outside of any call: {message}")
        }
    }
}

fn report_call(question: Question, wrong: Option<Wrong>) {
    let mut lent = Lent::new(wrong);
    let least = smallest(question.clone(), &mut lent);
    print_call("difference, with its smallest input", &least, &mut lent);
    if least.size() < question.size() {
        print_call("as it was found", &question, &mut lent);
    }
}

fn print_call(title: &str, question: &Question, lent: &mut Lent) {
    println!("{title}:");
    print!("{question}");
    match find(question, lent) {
        Some(found) => {
            println!("what      {}", found.what);
            println!("slatedb   {}", found.slatedb);
            println!("proved    {}", found.ours);
        }
        None => println!("what      it does not differ when asked again"),
    }
}

/// What a list leaves that demand 3 does not allow; in the steps a single commit may differ too.
fn fault(steps: &[Case]) -> Option<Difference> {
    let least = AtomicUsize::new(usize::MAX);
    let mut to = Comparison::new(0, &least, None);
    let _ = catch_unwind(AssertUnwindSafe(|| list_again(&mut to, steps)));
    to.difference
}

/// Without each step that is not needed.
fn report_list(mut steps: Vec<Case>, what: &str) {
    let mut what = what.to_string();
    let mut place = 0;
    while place < steps.len() && steps.len() > 1 {
        let mut fewer = steps.clone();
        let gone = fewer.remove(place);
        if place == 0 {
            fewer[0].image = gone.image;
        }
        match fault(&fewer) {
            Some(Difference::List(_, again)) => (steps, what) = (fewer, again),
            _ => place += 1,
        }
    }
    println!(
        "difference, after a list of {} commits: {what}",
        steps.len()
    );
    println!("image     {}", hexadecimal(&steps[0].image));
    for step in &steps {
        println!("job       {}", hexadecimal(&step.job));
        println!("ids       {}", hexadecimal(&step.ids));
        println!("out       {} bytes", step.room);
    }
}
