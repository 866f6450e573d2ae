//! Demand 3, run: a kernel that holds exactly the certificates of a subject's closure answers about that subject as the kernel does that
//! holds them all. That it must is a theorem (`stores_agree`, `closure_closed`); here the compiled kernel does it.
use oracle::{
    published::{keys, Bytes, Encode, Insertion},
    recipes::{case, Recipe, Size, RECIPES},
};
use saltbobbin::{Answer, Certificates, Kernel, Question};

/// Keys enough for a store of any recipe.
const POOL: usize = 80;

fn filled(insertions: &[Insertion], wanted: impl Fn(&Insertion) -> bool) -> Kernel {
    let mut kernel = Kernel::new();
    for insertion in insertions.iter().filter(|insertion| wanted(insertion)) {
        let added = match insertion {
            Insertion::Delegation { digest, issuer, payload } => {
                kernel.insert_delegation(digest, issuer.as_bytes(), payload.encode().as_bytes())
            }
            Insertion::Revocation { digest, issuer, revoked } => {
                kernel.insert_revocation(digest, issuer.as_bytes(), revoked)
            }
        };
        assert_eq!(added, Ok(true));
    }
    kernel
}

/// All that demand 3 speaks of, about one subject and the delegations of its closure.
fn questions(subject: Bytes, asked: &[Bytes], closure: &Certificates) -> Vec<Question> {
    let mut out = vec![Question::Members(subject), Question::Closure(subject)];
    for key in asked {
        out.extend([
            Question::PositivePower(subject, *key),
            Question::EffectivePower(subject, *key),
            Question::DelegationsTo(subject, *key),
        ]);
    }
    for digest in &closure.delegations {
        out.extend([
            Question::IsLive(*digest),
            Question::ConveyedPower(*digest),
            Question::Standing(*digest),
            Question::RevocationsOf(*digest),
        ]);
    }
    out
}

/// A kernel of everything, and one of what of a subject's closure `kept` lets through: the questions that they answer alike, and those not.
fn alike(
    recipe: &Recipe,
    seed: u64,
    most_subjects: usize,
    kept: impl Fn(&Insertion) -> bool,
) -> (usize, Vec<String>) {
    let store = recipe.make(seed);
    let concrete = store.concrete(&keys(7, POOL), seed);
    let asked: Vec<Bytes> = concrete.keys.iter().map(|key| *key.as_bytes()).collect();
    let whole = filled(&concrete.insertions, |_| true);
    let (mut same, mut other) = (0, Vec::new());
    for subject in asked.iter().take(most_subjects) {
        let closure = whole.closure(subject);
        let part = filled(&concrete.insertions, |insertion| {
            kept(insertion)
                && match insertion {
                    Insertion::Delegation { digest, .. } => closure.delegations.contains(digest),
                    Insertion::Revocation { digest, .. } => closure.revocations.contains(digest),
                }
        });
        let questions = questions(*subject, &asked, &closure);
        let answers: [Vec<Answer>; 2] = [whole.ask(&questions), part.ask(&questions)];
        for ((question, all), alone) in questions.iter().zip(&answers[0]).zip(&answers[1]) {
            if all == alone {
                same += 1;
            } else {
                other.push(format!("{} {seed}: {question:?} of {}", recipe.name, store.show()));
            }
        }
    }
    (same, other)
}

#[test]
fn a_kernel_of_just_the_closure_answers_alike() {
    for recipe in &RECIPES {
        let (stores, most_subjects) = match recipe.size {
            Size::Small => (5, usize::MAX),
            Size::Medium => (1, 6),
            Size::Full => (1, 2),
        };
        for i in 0..stores {
            let (same, other) = alike(recipe, case(11, i), most_subjects, |_| true);
            assert!(other.is_empty(), "{}", other.join("\n"));
            assert!(same > 0, "{}", recipe.name);
        }
    }
}

/// The same without the closure's revocations: that must show.
#[test]
fn a_closure_without_its_revocations_does_not() {
    let small = RECIPES.iter().filter(|recipe| recipe.size == Size::Small && recipe.name != "uniform");
    for recipe in small {
        let kept = |insertion: &Insertion| matches!(insertion, Insertion::Delegation { .. });
        let other: usize = (0..5).map(|i| alike(recipe, case(11, i), usize::MAX, kept).1.len()).sum();
        assert!(other > 0, "{}", recipe.name);
    }
}
