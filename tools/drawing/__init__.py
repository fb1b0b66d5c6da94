"""Pictures of plans and of searches. No part of what is proved."""
