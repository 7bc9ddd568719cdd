//! What the unchanged Rust is asked with: the rules' values in its own types.
use crate::config::{
    AcceptanceModel, DrafterCost, GammaPolicy, SpeculativeConfig, SwitchConstraints,
};
use crate::drafter::Drafter;
use crate::lent_model;
use crate::model::{Kind, Model};

pub fn cost_of(drafter: Drafter) -> DrafterCost {
    match drafter {
        Drafter::Fraction { frac } => DrafterCost::Fraction {
            frac: f64::from_bits(frac),
        },
        Drafter::Autoregressive {
            dense_params,
            expert_params,
            num_experts,
            experts_per_tok,
            shared_experts,
        } => DrafterCost::Autoregressive {
            dense_params: f64::from_bits(dense_params),
            expert_params: f64::from_bits(expert_params),
            num_experts,
            experts_per_tok,
            shared_experts,
        },
        Drafter::BlockParallel { params, block } => DrafterCost::BlockParallel {
            params: f64::from_bits(params),
            block,
        },
    }
}

/// Lends the loaded experts where the drafter reads them.
pub fn lend_loaded(drafter: Drafter, loaded: &[u64]) {
    if let Drafter::Autoregressive {
        experts_per_tok, ..
    } = drafter
    {
        lent_model::lend_loaded(experts_per_tok, &floats(loaded));
    }
}

pub fn acceptance(model: &Model) -> AcceptanceModel {
    match model.kind {
        Kind::Constant => AcceptanceModel::Constant {
            alpha: f64::from_bits(model.alpha),
        },
        Kind::PerPosition => AcceptanceModel::PerPosition {
            a: floats(&model.positions),
        },
        Kind::Trace => AcceptanceModel::TraceRounds {
            path: String::new(),
        },
    }
}

pub fn floats(bits: &[u64]) -> Vec<f64> {
    bits.iter().map(|&bits| f64::from_bits(bits)).collect()
}

/// Settings of which nothing is read.
pub fn any_config() -> SpeculativeConfig {
    SpeculativeConfig {
        gamma: 0,
        acceptance: AcceptanceModel::Constant { alpha: 0.0 },
        policy: GammaPolicy::Fixed,
        measured_cost: None,
        switch: SwitchConstraints::default(),
        drafter: None,
    }
}
