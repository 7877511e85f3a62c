//! The comparison of the assembly of parts: the same inputs, with the bytes of each range that is
//! kept. The archive has no function of parts: it is asked for ranges of the parts joined, one range
//! for each, without the safe crate.

use probe::host;

use super::compare::{built, Run};
use crate::judge::{Case, Told};
use crate::lent::Lent;
use crate::model::rules::{have_to_agree, Rule};
use crate::model::tile::{build_from_parts, kept};
use crate::model::Refusal;
use crate::sample::tiles::{joined, Input};
use crate::tally::{hex, Tally};

pub fn check(run: &mut Run, input: &Input) {
    let header = &input.header;
    let parts = kept(&input.ranges, &input.codestream);
    let document = |rule| build_from_parts(header, &parts, rule, usize::MAX);
    let original = document(Rule::Original);
    let panics = original.as_ref().is_err_and(Refusal::is_its_panic);
    let told = Told::by_or_panic(panics, || Some((run.original.from_parts)(header, &parts)));
    let agreed = told.clone().only_if(have_to_agree(header));

    let before = Lent::preset(&mut run.random, [input.needed()]);
    let (bytes, rows) = joined(&parts);
    let judge = |tally: &mut Tally, rule, told, document| {
        let case = Case {
            ours: before.left_by(|[out], [value]| built(rule, header, &rows, &bytes, out, value)),
            before: before.clone(),
            told,
            document,
        };
        case.judge(tally, || {
            let parts: Vec<_> = parts.iter().map(|part| hex(part)).collect();
            format!("header {}, parts {parts:?}, rule {rule:?}", hex(header))
        });
    };
    judge(&mut run.also[3], Some(host::ORIGINAL), told, original);
    judge(&mut run.also[4], None, agreed, document(Rule::AnnexB));
}
