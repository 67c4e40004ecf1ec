/* topology.c: communicators with a topology. */
#include "wrap.h"

WRAP(MPI_Cart_create,
     (MPI_Comm comm_old, int ndims, const int dims[], const int periods[], int reorder, MPI_Comm *comm_cart),
     (comm_old, ndims, dims, periods, reorder, comm_cart),
     COMM(comm_old) INT(ndims) INTS(dims, ndims) INTS(periods, ndims) INT(reorder),
     keep_dims(give_comm("comm_cart", code, comm_cart), ndims);)

static int count_true(int n, const int *flags)
{
    int count = 0;
    for (int i = 0; i < n; i++)
        count += flags[i] != 0;
    return count;
}

WRAP(MPI_Cart_sub, (MPI_Comm comm, const int remain_dims[], MPI_Comm *newcomm), (comm, remain_dims, newcomm),
     COMM(comm)
     if (dims_of(comm) > 0) { INTS(remain_dims, dims_of(comm)) },
     keep_dims(give_comm("newcomm", code, newcomm), count_true(dims_of(comm), remain_dims));)

WRAP(MPI_Graph_create,
     (MPI_Comm comm_old, int nnodes, const int index[], const int edges[], int reorder, MPI_Comm *comm_graph),
     (comm_old, nnodes, index, edges, reorder, comm_graph),
     COMM(comm_old) INT(nnodes) INTS(index, nnodes) INT(reorder), GIVES_COMM(comm_graph))
WRAP(MPI_Dist_graph_create,
     (MPI_Comm comm_old, int n, const int sources[], const int degrees[], const int destinations[], const int weights[],
      MPI_Info info, int reorder, MPI_Comm *comm_dist_graph),
     (comm_old, n, sources, degrees, destinations, weights, info, reorder, comm_dist_graph),
     COMM(comm_old) INT(n) INTS(sources, n) INTS(degrees, n) INT(reorder), GIVES_COMM(comm_dist_graph))
WRAP(MPI_Dist_graph_create_adjacent,
     (MPI_Comm comm_old, int indegree, const int sources[], const int sourceweights[], int outdegree,
      const int destinations[], const int destweights[], MPI_Info info, int reorder, MPI_Comm *comm_dist_graph),
     (comm_old, indegree, sources, sourceweights, outdegree, destinations, destweights, info, reorder, comm_dist_graph),
     COMM(comm_old) INT(indegree) INTS(sources, indegree) INT(outdegree) INTS(destinations, outdegree) INT(reorder),
     GIVES_COMM(comm_dist_graph))

/* ---- local ------------------------------------------------------------------------------------------------------ */

WRAP(MPI_Dims_create, (int nnodes, int ndims, int dims[]), (nnodes, ndims, dims), INT(nnodes) INT(ndims),
     if (code == MPI_SUCCESS) { INTS(dims, ndims) })
WRAP(MPI_Topo_test, (MPI_Comm comm, int *status), (comm, status), COMM(comm), )
WRAP(MPI_Cartdim_get, (MPI_Comm comm, int *ndims), (comm, ndims), COMM(comm), GIVES_INT(ndims))
WRAP(MPI_Cart_get, (MPI_Comm comm, int maxdims, int dims[], int periods[], int coords[]),
     (comm, maxdims, dims, periods, coords), COMM(comm) INT(maxdims), )
WRAP(MPI_Cart_rank, (MPI_Comm comm, const int coords[], int *rank), (comm, coords, rank), COMM(comm), GIVES_INT(rank))
WRAP(MPI_Cart_coords, (MPI_Comm comm, int rank, int maxdims, int coords[]), (comm, rank, maxdims, coords),
     COMM(comm) INT(rank) INT(maxdims), )
WRAP(MPI_Cart_shift, (MPI_Comm comm, int direction, int disp, int *rank_source, int *rank_dest),
     (comm, direction, disp, rank_source, rank_dest), COMM(comm) INT(direction) INT(disp),
     if (code == MPI_SUCCESS) {
         put_rank("rank_source", *rank_source);
         put_rank("rank_dest", *rank_dest);
     })
WRAP(MPI_Cart_map, (MPI_Comm comm, int ndims, const int dims[], const int periods[], int *newrank),
     (comm, ndims, dims, periods, newrank), COMM(comm), )
WRAP(MPI_Graph_map, (MPI_Comm comm, int nnodes, const int index[], const int edges[], int *newrank),
     (comm, nnodes, index, edges, newrank), COMM(comm), )
WRAP(MPI_Graphdims_get, (MPI_Comm comm, int *nnodes, int *nedges), (comm, nnodes, nedges), COMM(comm), )
WRAP(MPI_Graph_get, (MPI_Comm comm, int maxindex, int maxedges, int index[], int edges[]),
     (comm, maxindex, maxedges, index, edges), COMM(comm), )
WRAP(MPI_Graph_neighbors_count, (MPI_Comm comm, int rank, int *nneighbors), (comm, rank, nneighbors), COMM(comm), )
WRAP(MPI_Graph_neighbors, (MPI_Comm comm, int rank, int maxneighbors, int neighbors[]),
     (comm, rank, maxneighbors, neighbors), COMM(comm), )
WRAP(MPI_Dist_graph_neighbors_count, (MPI_Comm comm, int *indegree, int *outdegree, int *weighted),
     (comm, indegree, outdegree, weighted), COMM(comm), )
WRAP(MPI_Dist_graph_neighbors,
     (MPI_Comm comm, int maxindegree, int sources[], int sourceweights[], int maxoutdegree, int destinations[],
      int destweights[]),
     (comm, maxindegree, sources, sourceweights, maxoutdegree, destinations, destweights), COMM(comm), )
