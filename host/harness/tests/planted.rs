//! Every planted wrong answer is caught by the comparison.

use quarto_yaml_harness::generate;
use quarto_yaml_harness::guard::with_large_stack;
use quarto_yaml_harness::judge::{Ask, Judged};
use quarto_yaml_harness::plant::{self, Plant};
use quarto_yaml_oracle::PRESENT;

/// Applications that are tried of each plant, and cases that are looked at for them.
const APPLICATIONS: usize = 20;
const CASES: u64 = 20_000;

struct Tried {
    applied: usize,
    caught: usize,
    by_original: usize,
}

fn tried(plant: &Plant) -> Tried {
    let mut tried = Tried {
        applied: 0,
        caught: 0,
        by_original: 0,
    };
    for index in 0..CASES {
        let case = generate::case(plant.stream, 7, index);
        let judged = Judged::of(&case, Ask::Never);
        let Some(wrong) = (plant.apply)(&case, &judged.expected) else {
            continue;
        };
        let judged = Judged::of(&case, Ask::Domain);
        tried.applied += 1;
        tried.caught += usize::from(judged.outcome(&wrong).is_err());
        tried.by_original += usize::from(judged.against_original(&wrong).is_err());
        if tried.applied == APPLICATIONS {
            break;
        }
    }
    tried
}

#[test]
fn each_planted_answer_is_caught() {
    with_large_stack(|| {
        let plants = plant::all();
        assert!(plants.len() >= 20);
        for plant in &plants {
            let tried = tried(plant);
            println!(
                "{}: planted {}, caught {}, by the original alone {}",
                plant.name, tried.applied, tried.caught, tried.by_original
            );
            assert!(tried.applied > 0, "{} was never planted", plant.name);
            assert_eq!(tried.caught, tried.applied, "{} escaped", plant.name);
            if PRESENT && plant.seen_by_original {
                assert!(
                    tried.by_original > 0,
                    "{}: the original sees nothing",
                    plant.name
                );
            }
        }
    });
}
